"""Maps that fit a file, made by rule for the tests: rows move, code is cut out and put in, slots and names change, and some rows and methods
are gone. The same file and the same number give the same map (FORMAT, 5 and 10)."""
import random
from collections.abc import Iterator

from .blobs import Steps
from .meaning import Meaning
from .shown import escaped
from .values import HOISTED, Value

# The code of a longer method stays as it is: what is put in would pass the last offset.
LONGEST = 1 << 30
MOVED_TABLES = (0x01, 0x02, 0x06, 0x11, 0x1B, 0x23)


class Maker:
    def __init__(self, value: Value, seed: str) -> None:
        self.value, self.rng, self.meaning = value, random.Random(seed), Meaning(value)
        self.needed: dict[int, set[int]] = {}
        self.steps: set[int] = set()
        for custom in value.customs:
            if isinstance(custom.content, Steps):
                self.add_steps(custom.parent, custom.content)
        self.dropped = self.choose_dropped()

    def add_steps(self, method: int, said: Steps) -> None:
        """Offsets of async steps must be kept, and their methods too."""
        offsets = {(method, said.handler)} if said.handler is not None else set()
        offsets |= {place for pause, resume, of in said.steps for place in ((method, pause), (of, resume))}
        for of, offset in offsets:
            self.needed.setdefault(of, set()).add(offset)
            self.steps.add(of)

    def choose_dropped(self) -> set[int]:
        free = sorted(self.meaning.methods() - self.steps)
        return set(self.rng.sample(free, len(free) // 8))

    def text(self) -> str:
        return "\n".join(["ppdbmap 4", *self.rows(), *self.methods(), *self.names()]) + "\n"

    def rows(self) -> Iterator[str]:
        """Each row of some tables goes to another place; some rows of types and assemblies are gone."""
        for table in MOVED_TABLES:
            count = self.value.counts.get(table, 0)
            images = self.rng.sample(range(1, count + 4), count)
            yield f"rows {table:02x} {count + 3}"
            for row, image in enumerate(images, 1):
                if table in (0x01, 0x02, 0x1B, 0x23) and self.rng.random() < 0.1:
                    yield f"gone {table:02x} {row}"
                elif table != 6 or row not in self.dropped:
                    yield f"row {table:02x} {row} {image}"
        yield from (f"drop {method}" for method in sorted(self.dropped))

    def methods(self) -> Iterator[str]:
        for method in sorted(self.meaning.methods() - self.dropped):
            if self.rng.random() < 0.8:
                yield from self.code(method)
            slots = sorted({variable.slot for scope in self.meaning.scopes.get(method, ()) for variable in scope.variables})
            if slots and self.rng.random() < 0.8:
                yield f"slots {method}"
                yield from (f"slot {method} {slot} {image}" for slot, image in zip(slots, self.rng.sample(range(60), len(slots))))
            if self.rng.random() < 0.2:
                yield f"signature {method} {self.rng.randrange(self.value.counts.get(0x11, 0) + 4)}"

    def size(self, method: int) -> int:
        """More than every offset that the file names in the method."""
        ends = [scope.end for scope in self.meaning.scopes.get(method, ())]
        ends += [point.offset + 1 for point in self.value.methods[method].points] if method in self.value.methods else []
        ends += [end for custom in self.meaning.customs.get((6, method), ()) if custom.kind == HOISTED for _, end in custom.content]  # type: ignore
        return max([*ends, *(offset + 1 for offset in self.needed.get(method, ()))], default=0) + self.rng.randrange(3)

    def code(self, method: int) -> Iterator[str]:
        """The code between some cuts is kept, and other code comes before it; some parts are cut out."""
        size, new, runs = self.size(method), 0, []
        if size > LONGEST:
            return
        cuts = sorted({0, size, *(self.rng.randrange(size + 1) for _ in range(self.rng.randrange(6)))})
        for start, end in zip(cuts, cuts[1:]):
            if any(start <= offset < end for offset in self.needed.get(method, ())) or self.rng.random() < 0.7:
                new += self.rng.choice((0, 0, 1, 7))
                runs.append(f"run {start} {new} {end - start}")
                new += end - start
        yield f"method {method} {size} {new + self.rng.randrange(3)}"
        yield from runs

    def names(self) -> Iterator[str]:
        for number, document in enumerate(self.value.documents):
            if self.rng.random() < 0.5:
                yield f"document {escaped(document.name)} {escaped(b'/moved %d' % number)}"
        if self.rng.random() < 0.5:
            yield f"link {escaped(b'{}')}"


def made_map(value: Value, seed: str) -> str:
    return Maker(value, seed).text()
