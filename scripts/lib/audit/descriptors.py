"""Descriptors of the invalidation queue: Intel Virtualization Technology for Directed I/O, section 6.5.2 ("Queued
Invalidation Interface"; the layouts were checked against QEMU 10.0's and Linux 6.12's of them)."""

from typing import NamedTuple

PAGE_SHIFT = 12
ALL = 64  # an order: each page of 64 bits
WIDEST = 45  # from this order on a device is to drop all that it holds
LONGEST_RUN = 51  # of ones above the offset: bits 12 to 62


class Descriptor(NamedTuple):
    """What a descriptor says; what its kind hasn't is 0. It is of the 2^order pages from `first` on."""

    kind: str  # context, iotlb, devtlb, iec, wait, piotlb, entry, pdevtlb, response
    scope: int  # of iotlb 1 global, 2 domain, 3 page; of piotlb 2 PASID, 3 page; of entry 0 domain, 1 PASID, 3 global
    did: int
    pasid: int
    sid: int  # bus, device and function of the device: 16 bits
    first: int
    order: int
    fence: int  # of wait: what stands behind it begins only when it is done

    def covers(self, page):
        """Whether it is of this page."""
        return self.first <= page < self.first + (1 << self.order)

    def is_whole(self):
        """Whether it is of all pages."""
        return self.order == ALL


def masked(q1):
    """The pages of an address with a mask of 6 bits: the first one, and their order."""
    order = q1 & 63
    return q1 >> PAGE_SHIFT >> order << order, order


def sized(q1, is_sized):
    """The pages of a device-TLB's address: with the size bit the lowest zero above the offset says how many. The first
    one, and their order."""
    page = q1 >> PAGE_SHIFT
    if not is_sized:
        return page, 0
    ones = 0
    while ones < LONGEST_RUN and page >> ones & 1:
        ones += 1
    if ones >= WIDEST:
        return 0, ALL
    return page >> (ones + 1) << (ones + 1), ones + 1


def decode(q0, q1):
    """What the two low words say, or None where there is no such descriptor: at one the unit stops."""
    kind = q0 & 15 | (q0 >> 9 & 7) << 4
    scope, did, pasid, high = q0 >> 4 & 3, q0 >> 16 & 0xFFFF, q0 >> 32 & 0xFFFFF, q0 >> 32 & 0xFFFF
    if kind == 1:
        return Descriptor("context", scope, did, 0, high, 0, 0, 0)
    if kind == 2 and scope:
        return Descriptor("iotlb", scope, did, 0, 0, *(masked(q1) if scope == 3 else (0, ALL)), 0)
    if kind == 3:
        return Descriptor("devtlb", 0, 0, 0, high, *sized(q1, q1 & 1), 0)
    if kind == 4:
        return Descriptor("iec", 0, 0, 0, 0, 0, 0, 0)
    if kind == 5:
        return Descriptor("wait", 0, 0, 0, 0, 0, 0, q0 >> 6 & 1)
    if kind == 6 and scope in (2, 3):
        return Descriptor("piotlb", scope, did, pasid, 0, *(masked(q1) if scope == 3 else (0, ALL)), 0)
    if kind == 7 and scope != 2:
        return Descriptor("entry", scope, did, pasid, 0, 0, ALL, 0)
    if kind == 8:
        return Descriptor("pdevtlb", 0, 0, pasid, did, *sized(q1, q1 >> 11 & 1), 0)
    if kind == 9:
        return Descriptor("response", 0, 0, pasid, did, 0, 0, 0)
    return None
