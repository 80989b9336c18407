"""Erases what Rattle has besides Rust: clauses, ghost items, models and tactics."""
from __future__ import annotations

from plain.source import GONE, ITEM, JOINED, Source


class Erased(Source):
    def erase_clause(self, i: int) -> int:
        """Erases `requires name { .. }` or `ensures* name { .. }`, and returns the number of the token behind it."""
        j = self.next(i)
        if self.is_at(j, "*"):
            j = self.next(j)
        if self.kinds[j] == "word":
            j = self.next(j)
        if not self.is_at(j, "{"):
            self.reject(i, f"`{self.tokens[i]}` that is no clause")
        end = self.close(j)
        self.erase(i, end)
        j = self.next(end)
        if self.tokens[j] in (";", "{") and all(kind == "space" for kind in self.kinds[end + 1 : j]):
            self.erase(end + 1, j - 1, "")
            self.out[end] = JOINED
        return end + 1

    def erase_ghost(self, i: int) -> int:
        """Erases `ghost use ..;`, or a ghost field, member or value."""
        j = self.next(i)
        if self.is_at(j, "use"):
            while not self.is_at(j, ";"):
                j = self.close(j) if self.is_at(j, "{") else j
                j += 1
            self.erase(i, j, ITEM)
            return j + 1
        if self.kinds[j] != "word":
            self.reject(i, "`ghost` before something unknown")
        j = self.next(j)
        is_item = False
        for word in (":", "=", "by"):
            if self.is_at(j, word) and self.is_at(self.next(j), "{"):
                j = self.next(self.close(self.next(j)))
                is_item = True
        if not is_item:
            self.reject(i, "a ghost item without a type and a value")
        if self.tokens[j] in (";", ","):
            self.erase(i, j, ITEM)
            return j + 1
        if self.tokens[j] not in ("requires", "ensures", "{", "}"):
            self.reject(j, "a ghost item that does not end")
        while self.kinds[j - 1] in ("space", "comment"):
            j -= 1
        self.erase(i, j - 1, GONE)
        return j

    def erase_model(self, i: int) -> int:
        """Erases `impl Model for T { .. }`, all of whose members are ghost."""
        j = i
        while not self.is_at(j, "{"):
            j += 1
        end = self.close(j)
        k = self.next(j)
        while k < end:
            if not self.is_at(k, "ghost"):
                self.reject(k, "an `impl Model` with a member that is not ghost")
            k = self.next(self.erase_ghost(k) - 1)
        for k in range(i, end + 1):
            self.out.pop(k, None)
        self.erase(i, end, ITEM)
        return end + 1
