"""What a log says of domains: by which DID and PASID a domain's invalidations go, and to which devices."""

from bisect import bisect_left


class Facts:
    """Facts of a whole log. A domain is known by its address in the kernel, and that may be another domain's later. So
    where its DID or PASID changes it gets a new name, ADDRESS#1, ADDRESS#2 ..: of a process' space just before the
    first fact that is new, as a bind begins with that; of another domain just behind the last one that is old."""

    def __init__(self):
        self.devices = {}  # (DID, PASID) -> the SIDs of its devices with a device-TLB, in the whole log
        self.tags = {}  # name of a domain -> (DID, PASID)
        self.count = 0
        self._latest = {}  # address -> (line, tag) of its last fact
        self._turns = {}  # address -> the lines behind which it has a new name

    def domain(self, line, address, tag):
        """At this line the domain goes by this tag, (DID, PASID)."""
        self.count += 1
        old = self._latest.get(address)
        if old is None:
            self.tags[address] = tag
        elif old[1] != tag:
            turns = self._turns.setdefault(address, [])
            turns.append(line - 1 if tag[1] else old[0])
            self.tags["%s#%d" % (address, len(turns))] = tag
        self._latest[address] = line, tag

    def device(self, tag, sid):
        """The device has a device-TLB, for what goes by this tag."""
        self.count += 1
        self.devices.setdefault(tag, set()).add(sid)

    def tag_of(self, address):
        """The tag that a domain has at the line that is read, or None."""
        latest = self._latest.get(address)
        return latest and latest[1]

    def has_turns(self):
        """Whether an address was another domain's later."""
        return bool(self._turns)

    def name(self, address, line):
        """The name of the domain that has this address at this line."""
        turns = self._turns.get(address)
        past = bisect_left(turns, line) if turns else 0
        return "%s#%d" % (address, past) if past else address
