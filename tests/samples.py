"""The images of samples/, which coreboot's cbfstool has made, with the areas of their maps."""

from tests.programs import TOP
from tests.reading import first_map
from tests.texts import layout

NAMES = ("created", "hashes", "packed", "types")


class Sample:
    """An image, and the area COREBOOT or another one as its region.

    `keep` replaces the last four bytes of the region.
    """

    def __init__(self, name, region="COREBOOT", keep=b""):
        self.image = (TOP / "samples" / f"{name}.rom").read_bytes()
        self.listing = (TOP / "samples" / f"{name}.print").read_bytes()
        self.map = first_map(self.image)
        self.areas = self.map.areas
        self.region = next(one for one in self.areas if one.name == region.encode())
        if keep:
            self.image = self.with_region(self.region_bytes()[: -len(keep)] + keep)

    def layout(self):
        """Returns the output of `layout`."""
        name = self.map.name.decode()
        return layout(self.map.size, self.areas, name, self.map.position)

    def bytes_of(self, area):
        """Returns the bytes of an area."""
        return self.image[area.offset : area.offset + area.size]

    def region_bytes(self):
        """Returns the bytes of the region."""
        return self.bytes_of(self.region)

    def with_region(self, data):
        """Returns the image with these bytes as its region."""
        start = self.region.offset
        return self.image[:start] + data + self.image[start + self.region.size :]
