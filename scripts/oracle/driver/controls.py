"""What a host turns on and off at an endpoint, and endpoints that are gone (docs/DRIVERS.md, section 15)."""
from world import UP, forget_all


def turn(port, control, on):
    if control == 'ats':
        turn_ats(port, on)
    elif control == 'pri':
        turn_pri(port, on)
    else:
        port.mastering = on


def turn_ats(port, on):
    """Once it is off nothing is held, and what is asked for won't be; a use that began runs on."""
    port.ats = on
    if not on:
        port.held, port.tags = {}, {tag: (p, page, True) for tag, (p, page, _) in port.tags.items()}


def turn_pri(port, on):
    """That a response has failed is forgotten where page requests are turned on from off."""
    port.disabled = port.disabled and not (on and not port.pri)
    port.pri = on


def is_idle(port):
    """No translation request is out, and no use runs."""
    return not port.tags and not port.uses


def leave(port):
    forget_all(port)
    port.gone = True


def is_seen_gone(port):
    """It is gone, and nothing that it has sent is on its way up."""
    return port.gone and not any(m[0] in UP for m in port.link)
