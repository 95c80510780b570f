"""The final destination of an IP packet, after RFC 791 (section 3.1), RFC 2460 (section 4.4), RFC 6275 (section 6.4), RFC 8200
(sections 4.4 and 8.1) and RFC 8754 (section 2)."""

import ipaddress

UNKNOWN = "unknown"
SOURCE_ROUTES = (131, 137)


def final_destination(it):
    """The text of the address, of an object of `packets json` with an IP header, or UNKNOWN."""
    kind, net = next(iter(it["net"].items()))
    if kind == "Ipv4":
        return after_options(net["destination"], bytes.fromhex(net["options"]))
    destination = net["destination"]
    for extension in net["extensions"]:
        name, fields = next(iter(extension.items()))
        if name == "Routing" and destination != UNKNOWN:
            destination = after_routing(destination, bytes.fromhex(fields["payload"]))
    return destination


def after_options(destination, options):
    while options and options[0]:
        if options[0] == 1:
            options = options[1:]
            continue
        size = options[1] if len(options) > 1 else 0
        if options[0] in SOURCE_ROUTES:
            return after_route(destination, options[:size] if 3 <= size <= len(options) else None)
        if size < 2:
            break
        options = options[size:]
    return destination


def after_route(destination, option):
    """The pointer counts from 1; past the end the route is used up."""
    if option is None:
        return UNKNOWN
    size, pointer = len(option), option[2]
    if pointer > size:
        return destination
    if size % 4 != 3 or pointer % 4 or pointer < 4:
        return UNKNOWN
    return str(ipaddress.IPv4Address(option[-4:]))


def after_routing(destination, header):
    """The bytes of a routing header from its type on, which say how many segments are left."""
    kind, left, entries, rest = header[0], header[1], (len(header) - 6) // 16, (len(header) - 6) % 16
    if left == 0:
        return destination
    address = lambda at: str(ipaddress.IPv6Address(header[6 + 16 * at : 22 + 16 * at]))
    if kind == 0 and not rest and left <= entries:
        return address(entries - 1)
    if kind == 2 and not rest and entries == 1 and left == 1:
        return address(0)
    # The index of the last entry may leave room for other fields after it.
    if kind == 4 and header[2] + 1 <= entries and left <= header[2] + 1:
        return address(0)
    return UNKNOWN
