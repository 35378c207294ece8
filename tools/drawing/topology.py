"""The nodes of a configuration, under the names that lines use, which of them are up, and who serves a shard."""

from collections.abc import Iterator
from typing import Any


class Topology:
    """Nodes of a tier, and leaders of a region, take turns: a node serves the shards that leave its number. Where one is down, the next serves."""

    def __init__(self, line: dict[str, Any]) -> None:
        self.shards: int = line["shards"]
        self.regions: dict[str, dict[str, Any]] = {region["name"]: region for region in line["regions"]}
        self._masters: list[str] = line.get("masters", [line["regions"][0]["name"]])
        self.down: set[str] = set()
        self.suspected: set[tuple[str, str, str]] = set()  # a tier, by its region and name, and a leader that it suspects

    def master(self, shard: int) -> str:
        """The master region of a shard."""
        return self._masters[shard % len(self._masters)]

    def preferred(self, region: str, shard: int) -> str:
        """The leader whose turn the shard is, up or not."""
        return self.leaders(region)[shard % len(self.leaders(region))]

    def may_lead(self, tier: tuple[str, str], leader: str) -> bool:
        return leader not in self.down and (*tier, leader) not in self.suspected

    def leader(self, tier: tuple[str, str], region: str, shard: int) -> str | None:
        """The leader of the region that a tier chooses."""
        return next((leader for leader in in_turn(self.leaders(region), shard) if self.may_lead(tier, leader)), None)

    def follower(self, region: str, tier: str, shard: int) -> str | None:
        """The follower that serves a session of the tier."""
        tiers = list(self._tiers(region))
        return next((node for node in (self._serving(region, name, shard) for name in in_turn(tiers, tiers.index(tier))) if node not in self.down), None)

    def _serving(self, region: str, tier: str, shard: int) -> str:
        return f"{region}/{tier}/{shard % self._tiers(region)[tier]}"

    def store(self, region: str, shard: int) -> str:
        return f"{region}/store/{shard}"

    def told(self, region: str, shard: int) -> list[str]:
        """The followers that get a message of an entry of the shard in the region."""
        return [node for node in self._in_tiers(region, shard) if node not in self.down]

    def serving(self, region: str, shard: int) -> list[str]:
        """The followers and the leader of the region whose turn the shard is, up or not."""
        return [*self._in_tiers(region, shard), self.preferred(region, shard)]

    def _in_tiers(self, region: str, shard: int) -> list[str]:
        return [self._serving(region, tier, shard) for tier in self._tiers(region)]

    def followers(self, region: str) -> list[str]:
        return [f"{region}/{tier}/{index}" for tier, count in self._tiers(region).items() for index in range(count)]

    def leaders(self, region: str) -> list[str]:
        return [f"{region}/leader/{index}" for index in range(self.regions[region].get("leaders", 1))]

    def stores(self, region: str) -> list[str]:
        return [f"{region}/store/{shard}" for shard in range(self.shards)]

    def caches(self) -> list[str]:
        """All leaders and followers."""
        return [node for region in self.regions for node in self.followers(region) + self.leaders(region)]

    def _tiers(self, region: str) -> dict[str, int]:
        return {tier["name"]: tier.get("followers", 1) for tier in self.regions[region]["tiers"]}


def in_turn(nodes: list[str], first: int) -> Iterator[str]:
    """All of them, from one on round about."""
    return (nodes[(first + step) % len(nodes)] for step in range(len(nodes)))
