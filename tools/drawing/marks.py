"""How far each cache has processed each log, by the rules of docs/MODEL.md: what is reset by a trim is what lies behind its cut."""

from collections import Counter, defaultdict

WINDOW = 1024


class Marks:
    """The low-water mark of each node and shard, and what is marked ahead of it."""

    def __init__(self) -> None:
        self.low: Counter[tuple[str, int]] = Counter()
        self._ahead: defaultdict[tuple[str, int], set[int]] = defaultdict(set)

    def mark(self, node: str, shard: int, position: int) -> None:
        place = (node, shard)
        if not self.low[place] < position <= self.low[place] + WINDOW:
            return
        self._ahead[place].add(position)
        while self.low[place] + 1 in self._ahead[place]:
            self.low[place] += 1
            self._ahead[place].discard(self.low[place])

    def forget(self, node: str, shard: int) -> None:
        """An ask is opened: what is marked ahead is forgotten."""
        self._ahead[node, shard].clear()

    def begin(self, node: str, shard: int, length: int) -> None:
        """The node begins anew, or has caught up, at the length of its region's store."""
        self.low[node, shard] = length
        self.forget(node, shard)
