"""Small networks and policies made by chance, always the same ones for one number."""
import json
import random

PREFIXES = "10.0.0.0/8", "10.1.0.0/16", "10.1.2.0/24", "192.0.2.0/24"
SET_CALLS = "avoid", "through", "notransit", "start", "end", "exit", "enter"


class Made:
    """The network and the policy of a number."""

    def __init__(self, number: int):
        self.chance = random.Random(number)
        self.routers = [f"R{n}" for n in range(1, self.chance.randint(2, 5) + 1)]
        self.peers = [f"P{n}" for n in range(1, self.chance.randint(0, 3) + 1)]
        self.names = self.routers + self.peers

    def topology(self) -> str:
        """The text of the network: a chain of routers with some links more, and one to three links a peer."""
        chance, links = self.chance, {tuple(pair) for pair in zip(self.routers, self.routers[1:])}
        links |= {(a, b) for a in self.routers for b in self.routers if a < b and chance.random() < 0.4}
        links |= {(chance.choice(self.routers), peer) for peer in self.peers for _ in range(chance.randint(1, 3))}
        sites = [{"name": name, "asn": (64512 if name in self.routers else 1001) + n, "id": f"10.255.0.{n + 1}"} for n, name in enumerate(self.names)]
        cut = len(self.routers)
        return json.dumps({"routers": sites[:cut], "peers": sites[cut:], "links": sorted(links)})

    def some(self, names: list) -> str:
        """A set as a policy writes it."""
        return ", ".join(self.chance.sample(names, min(len(names), self.chance.choice((1, 1, 1, 2, 3)))))

    def call(self) -> str:
        chance = self.chance
        word = chance.choice(("any", "any", "internal", "drop", "link", "path", "exit", "exit", "notransit") + SET_CALLS)
        if word == "link":
            return f"link({self.spot()}, {self.spot()})"
        if word == "path":
            return f"path({', '.join(self.spot() for _ in range(chance.randint(2, 4)))})"
        return f"{word}({self.some(self.names)})" if word in SET_CALLS else word

    def spot(self) -> str:
        """A place of a link or a path."""
        return self.chance.choice(("any", self.chance.choice(self.names), "{ " + self.some(self.names) + " }"))

    def test(self, depth: int) -> str:
        """An expression without ranks."""
        if not depth or self.chance.random() < 0.4:
            return self.call()
        word = self.chance.choice(("and", "or", "not"))
        return f"not ({self.test(depth - 1)})" if word == "not" else f"({self.test(depth - 1)} {word} {self.test(depth - 1)})"

    def ranked(self) -> str:
        shape = self.chance.random()
        if shape < 0.15:
            return f"exit({self.some(self.names)} >> any)"
        if shape < 0.3:
            return f"({self.test(0)} >> any) and {self.test(1)}"
        return " >> ".join([self.test(2) for _ in range(self.chance.randint(0, 2))] + [self.chance.choice(("any", self.test(1)))])

    def policy(self) -> str:
        """The text of a policy: some prefixes with their routers, and one to three statements."""
        chance, items = self.chance, []
        for prefix in chance.sample(PREFIXES, chance.randint(0, 3)):
            items.append(f"originate {prefix} at {self.some(self.routers)};")
        for _ in range(chance.randint(1, 3)):
            patterns = chance.choice(("true", *(f"{prefix}{chance.choice(('', ' le 24'))}" for prefix in PREFIXES), " or ".join(PREFIXES[1:3])))
            sources = chance.choice(("", "", "", f" from {self.some(self.names)}"))
            items.append(f"{patterns} => {self.ranked()}{sources};")
        return "\n".join(items) + "\n"
