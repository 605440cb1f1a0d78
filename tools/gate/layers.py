"""Where the boxes of a picture go whose lines lead from each layer to lower ones.

A line that passes a layer has a place of its own there, as a narrow box. Boxes of a layer are
ordered by the places of those that they are joined to."""

ROUNDS = 24


class Place:
    """A box, or what a line passes: its layer, what it is joined to above and below, and the box at
    which its lines begin."""

    def __init__(self, name, layer, width, start):
        self.name, self.layer, self.width, self.start = name, layer, width, start
        self.x, self.above, self.below = 0.0, [], []

    def wanted(self):
        """The mean of the places that it is joined to."""
        joined = self.above + self.below
        return sum(it.x for it in joined) / len(joined) if joined else self.x


def layer_of(name, uses):
    return 1 + max((layer_of(used, uses) for used in uses[name]), default=0)


def below(name, uses):
    """All that a name uses, directly or not."""
    return set(uses[name]).union(*(below(used, uses) for used in uses[name]))


def shortest(name, uses):
    """What a name uses, without what another of these uses too."""
    return [it for it in uses[name] if not any(it in below(other, uses) for other in uses[name])]


class Layers:
    """The boxes of the names and the places of their lines, by layers from the lowest."""

    def __init__(self, uses, width, room, passing):
        self.width, self.room, self.passing = width, room, passing
        self.layers = {}
        self.boxes = {name: self.add(name, layer_of(name, uses), room, name) for name in uses}
        for name in uses:
            for used in shortest(name, uses):
                self.join(self.boxes[name], self.boxes[used])
        for layer in self.layers.values():
            self.pack(layer)
        for _ in range(ROUNDS):
            self.settle()

    def add(self, name, layer, width, start):
        place = Place(name, layer, width, start)
        self.layers.setdefault(layer, []).append(place)
        return place

    def join(self, upper, lower):
        """Joins two boxes through the layers between them."""
        for layer in range(upper.layer - 1, lower.layer, -1):
            place = self.add("", layer, self.passing, upper.start)
            self.link(upper, place)
            upper = place
        self.link(upper, lower)

    @staticmethod
    def link(upper, lower):
        upper.below.append(lower)
        lower.above.append(upper)

    def settle(self):
        """Orders each layer by what its boxes are joined to, from the lowest, and then back."""
        numbers = sorted(self.layers)
        for number in [*numbers, *reversed(numbers)]:
            layer = self.layers[number]
            for place in layer:
                place.x = place.wanted()
            layer.sort(key=lambda it: it.x)
            self.pack(layer)

    def pack(self, layer):
        """Moves the boxes of a layer apart, within the width of the picture."""
        left = 0.0
        for place in layer:
            place.x = max(place.x, left + place.width / 2)
            left = place.x + place.width / 2
        right = float(self.width)
        for place in reversed(layer):
            place.x = min(place.x, right - place.width / 2)
            right = place.x - place.width / 2
