"""What is listed of a zone: all that the caller may list, or what is at some names and below them."""

from . import data, names, refusals
from .server import Server
from .telling import Bad, Refused
from .zone import Zone

FEW = 8  # names up to which each is asked for; above, the whole list is one request


class Listing:
    """A zone as far as it was asked for."""

    def __init__(self, server: Server, origin: str) -> None:
        self.server = server
        self.zone = Zone(origin)
        self.asked: set[str] = set()
        self.is_whole = False

    def read(self, *parts: str) -> list[data.Record]:
        """The records of the zone, or those within a name."""
        reply = self.server.get("records", "zones", self.zone.origin, "records", *parts)
        if reply.status != 200:
            raise Refused(refusals.words(reply.fields), reply.fields)
        try:
            return [data.record_of(line) for line in reply.fields["records"]]
        except ValueError:
            raise Bad("the reply has a line that is no record") from None

    def need_all(self) -> Zone:
        """All that the caller may list."""
        if not self.is_whole:
            self.zone = Zone(self.zone.origin, self.read())
            self.is_whole = True
        return self.zone

    def need(self, wanted: list[str]) -> Zone:
        """What is at these names and below them, as far as they are within the zone."""
        missing = [name for name in dict.fromkeys(wanted) if name not in self.asked and names.is_within(name, self.zone.origin)]
        if self.is_whole:
            return self.zone
        if len(missing) + len(self.asked) > FEW or self.zone.origin in missing:
            return self.need_all()
        for name in missing:
            self.asked.add(name)
            found = Zone(self.zone.origin, self.read(name))
            for owner, node in found.nodes.items():
                self.zone.put(owner, node)
        return self.zone

    def lists(self, name: str) -> bool:
        """Whether a record at a name is listed."""
        return bool(self.zone.at(name))
