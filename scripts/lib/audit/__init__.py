"""What a machine's trace says, judged: `scripts/audit`.

A log goes through these, each in its own module:

    lines        the text of a log: a line's parts, numbers, what is refused
    descriptors  words of the invalidation queue to what they say
    reading      lines to acts, in the log's order (acts: how they are kept meanwhile, and written)
    facts        which DID, PASID and devices a domain has, at which line
    pages        acts to slices: all that touches one page at one device, while it leads to one frame
    bindings     the same for a PASID, and for its table (slicing: both)
    shapes       slices to drivers: equal ones are one
    judging      drivers to verdicts, by `svahost judge`
    report       what is printed

Nothing here is proved. A verdict is that of `svahost judge`, of the driver that stands in the report."""
