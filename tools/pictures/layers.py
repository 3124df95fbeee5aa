"""A layout in layers: nodes of one size a layer, edges that pass from layer to layer without crossing a node.

An edge goes from a node to one in a later layer, or back. Where it passes a layer it has a lane of its own there, which
all edges of one stem share. Lanes and nodes of a layer are ordered and placed by where their neighbours are.
"""

from dataclasses import dataclass, field
from typing import Hashable, List, Tuple

LANE = 4
SWEEPS = 24
GAPS = {(True, True): 30, (True, False): 18, (False, True): 18, (False, False): 9}  # by which of two is a node


@dataclass(frozen=True)
class Edge:
    """An edge: its nodes, the heights below their tops at which it is tied, and the stem that it shares."""

    source: int
    source_at: float
    target: int
    target_at: float
    stem: Hashable


@dataclass(eq=False)
class Item:
    """A node or a lane, in its layer; `top` is what the layout finds."""

    layer: int
    height: float
    is_node: bool
    top: float = 0
    ties: List[Tuple["Item", float, float]] = field(default_factory=list)

    def wanted_top(self):
        """Returns where it would lie level with its neighbours."""
        tops = [other.top + other_at - at for other, other_at, at in self.ties]
        return sum(tops) / len(tops) if tops else self.top


@dataclass(frozen=True)
class Joint:
    """An end of a piece of an edge: an item, the height below its top, and which of its sides."""

    item: Item
    at: float
    is_right: bool


@dataclass(frozen=True)
class Piece:
    """A piece of an edge between two items, or through a lane; the last one ends at the edge's target."""

    start: Joint
    end: Joint
    edge: Edge
    is_last: bool


def layers_of(count, edges, order):
    """Returns the layer of each node: after those from which edges lead to it, of the edges along the given order."""
    rank = {node: number for number, node in enumerate(order)}
    layers = [0] * count
    for node in order:
        into = [layers[edge.source] + 1 for edge in edges if edge.target == node and rank[edge.source] < rank[node]]
        layers[node] = max(into, default=0)
    return layers


class Layout:
    """The items of all layers, and the pieces of all edges."""

    def __init__(self, heights, edges, order):
        layers = layers_of(len(heights), edges, order)
        self.nodes = [Item(layer, height, True) for layer, height in zip(layers, heights)]
        self.layers = [[] for _ in range(max(layers, default=-1) + 1)]
        for node in order:
            self.layers[layers[node]].append(self.nodes[node])
        self.lanes = {}
        self.pieces = {}
        for edge in edges:
            self.route(edge)
        self.place()

    def route(self, edge):
        """Lays an edge through the lanes of the layers between its nodes."""
        source, target = self.nodes[edge.source], self.nodes[edge.target]
        is_forth = source.layer < target.layer
        passed = range(source.layer + 1, target.layer) if is_forth else range(source.layer, target.layer - 1, -1)
        joint = Joint(source, edge.source_at, True)
        for layer in passed:
            lane = self.lane(edge, layer, is_forth)
            self.tie(joint, Joint(lane, LANE / 2, not is_forth), edge)
            joint = Joint(lane, LANE / 2, is_forth)
            self.add(Joint(lane, LANE / 2, not is_forth), joint, edge)
        self.tie(joint, Joint(target, edge.target_at, False), edge, True)

    def lane(self, edge, layer, is_forth):
        """Returns the lane of an edge in a layer."""
        key = (edge.stem, layer, is_forth)
        if key not in self.lanes:
            self.lanes[key] = Item(layer, LANE, False)
            self.layers[layer].append(self.lanes[key])
        return self.lanes[key]

    def add(self, start, end, edge, is_last=False):
        """Adds a piece, if an edge of the same stem hasn't the same one; tells whether it was added."""
        key = (start, end)
        is_new = key not in self.pieces
        if is_new:
            self.pieces[key] = Piece(start, end, edge, is_last)
        return is_new

    def tie(self, start, end, edge, is_last=False):
        """Adds a piece between two items, which are drawn to each other."""
        if self.add(start, end, edge, is_last):
            start.item.ties.append((end.item, end.at, start.at))
            end.item.ties.append((start.item, start.at, end.at))

    def place(self):
        """Orders and places the items of all layers, and keeps the placing with the least slope."""
        for layer in self.layers:
            stack(layer)
        best = self.slope(), [(item, item.top) for layer in self.layers for item in layer]
        for sweep in range(SWEEPS):
            layers = self.layers if sweep % 2 == 0 else self.layers[::-1]
            for layer in layers:
                if sweep < SWEEPS - 6:
                    layer.sort(key=lambda item: item.wanted_top() + item.height / 2)
                level(layer)
            if self.slope() < best[0]:
                best = self.slope(), [(item, item.top) for layer in self.layers for item in layer]
        for item, top in best[1]:
            item.top = top
        highest = min((item.top for item, _ in best[1]), default=0)
        for item, _ in best[1]:
            item.top -= highest

    def slope(self):
        """Returns how far apart in height the ends of all ties are."""
        items = [item for layer in self.layers for item in layer]
        return sum(abs(item.top + at - other.top - other_at) for item in items for other, other_at, at in item.ties)

    def height(self):
        """Returns the height of the whole layout."""
        return max((item.top + item.height for layer in self.layers for item in layer), default=0)


def distances(layer):
    """Returns how far below the top of each item the next one begins, at least."""
    return [one.height + GAPS[one.is_node, other.is_node] for one, other in zip(layer, layer[1:])]


def stack(layer):
    """Places the items of a layer one below another."""
    top = 0
    for item, distance in zip(layer, [*distances(layer), 0]):
        item.top = top
        top += distance


def level(layer):
    """Places the items of a layer, in their order, as near as it goes to where they would lie level.

    Items that would overlap are joined into blocks, each of which lies at the mean of what its items want.
    """
    blocks = []  # pairs of the sum of what is wanted, less the distances, and the number of items
    below = 0
    for item, distance in zip(layer, [0, *distances(layer)]):
        below += distance
        total, count = item.wanted_top() - below, 1
        while blocks and blocks[-1][0] / blocks[-1][1] > total / count:
            before = blocks.pop()
            total, count = total + before[0], count + before[1]
        blocks.append((total, count))
    starts = [total / count for total, count in blocks for _ in range(count)]
    below = 0
    for item, distance, start in zip(layer, [0, *distances(layer)], starts):
        below += distance
        item.top = start + below
