"""Tries the mutants of one crate in rounds, mutants of different functions at once.

First the control: the functions that the mutants edit must be proved as they stand. What that check proves is
kept, and each round goes over a copy of it. A round checks only the functions that its mutants edit. A mutant
is refused if its own function is, for another reason than that one which it calls is refused. If only
that is the reason, it waits for a round without the mutant of the function that is called. A mutant that is
tried alone may be refused in any function that is proved without it. One that is not refused so, or whose
function the prover does not know by name, is tried alone by a check of the whole crate."""

import os
import shutil
from collections.abc import Callable, Iterable, Mapping
from typing import NamedTuple

from scripts import mutant_edits
from scripts.mutant_edits import Function, Mutant
from scripts.mutant_prover import Answer, Prover


class Result(NamedTuple):
    """What a mutant came to, and why or where."""

    mutant: mutant_edits.Mutant
    is_refused: bool
    what: str

    def line(self) -> str:
        said = f"refused ({self.what})" if self.is_refused else self.what
        return f"{self.mutant.label}: {said}"


class Trial:
    """The mutants of a crate. `say` takes each result as soon as it is known."""

    def __init__(self, prover: Prover, source: str, room: str, say: Callable[[Result], object]) -> None:
        self.prover, self.room, self.say = prover, room, say
        self.folder, self.kept = f"{room}/crate", f"{room}/kept"
        for part in mutant_edits.PARTS:
            if os.path.isdir(f"{source}/{part}"):
                shutil.copytree(f"{source}/{part}", f"{self.folder}/{part}")
        os.mkdir(self.kept)
        self.sound = mutant_edits.texts_of(self.folder)
        self.left: list[Mutant] = []
        self.wholly: list[Mutant] = []
        self.alone: set[Mutant] = set()
        # For each mutant, the functions whose mutants hide what it comes to.
        self.apart: dict[Mutant, set[str]] = {}
        # How the prover names each function, and the functions that are proved without a mutant.
        self.named: dict[Function, str] = {}
        self.proved: set[str] = set()
        self.rounds, self.seconds = 0, 0.0

    def run(self, mutants: Iterable[Mutant]) -> None:
        """Tries all of these mutants."""
        for it in mutants:
            try:
                it.looks_at(self.sound)
            except mutant_edits.BadEdit as why:
                self.settle(it, False, f"BAD EDIT: {why}")
            else:
                (self.left if it.functions else self.wholly).append(it)
        if self.left:
            self.control()
        while self.left:
            self.round()
        if len(self.wholly) > 1:
            # The first would cost as much as this, which makes the others cheap.
            self.proved |= self.checked({}, self.kept, None).proved()
        for it in self.wholly:
            self.try_wholly(it)

    def settle(self, mutant: Mutant, is_refused: bool, what: str) -> None:
        if mutant in self.left:
            self.left.remove(mutant)
        self.say(Result(mutant, is_refused, what))

    def below_crate(self, name: str) -> str:
        return name.removeprefix(f"{self.prover.crate}::")

    def control(self) -> None:
        """Checks the functions of all mutants as they stand."""
        functions = dict.fromkeys(it for mutant in self.left for it in mutant.functions)
        names = {it: [*it.names] for it in functions}
        answer: Answer | None = None
        while names:
            answer = self.checked({}, self.kept, [it[0] for it in names.values()])
            unfit, fitting = answer.unfit() or ("", list[str]())
            again = [it for it in names if names[it][0] == unfit]
            if not again:
                break
            for function in again:
                names[function] = self.other_names(function, names[function], fitting)
                if not names[function]:
                    del names[function]
            answer = None
        for function, (name, *_) in names.items():
            whole = f"{self.prover.crate}::{name}"
            found = [it for it in answer.verdicts if it == whole or it.endswith(f"::{name}")] if answer else []
            self.named.update({function: it for it in found if it == whole or len(found) == 1})
        self.proved |= answer.proved() if answer else set()
        self.judge_control(answer)

    def other_names(self, function: Function, names: list[str], fitting: list[str]) -> list[str]:
        """Returns the names to try after one that fits no function, or several: these."""
        if fitting:
            module = f"{self.prover.crate}::{function.module}::"
            near = [it for it in fitting if it.startswith(module)]
            return [self.below_crate(near[0])] if len(near) == 1 else []
        return names[1:]

    def judge_control(self, answer: Answer | None) -> None:
        """Sets apart the mutants whose functions have no name, and gives up on those whose functions are not
        proved as they stand."""
        for mutant in [*self.left]:
            functions = [self.named.get(it, "") for it in mutant.functions]
            if answer and not answer.has_ended():
                self.settle(mutant, False, f"NOT TRIED: without it {answer.end()}")
            elif not all(functions):
                self.left.remove(mutant)
                self.wholly.append(mutant)
            elif not {*functions} <= self.proved:
                lacking = next(it for it in functions if it not in self.proved)
                why = f"{self.below_crate(lacking)} is not proved without it"
                self.settle(mutant, False, f"NOT TRIED: {why}")

    def functions_of(self, mutant: Mutant) -> list[str]:
        return [self.named[it] for it in mutant.functions]

    def checked(self, texts: Mapping[str, str], kept: str, only: Iterable[str] | None) -> Answer:
        """Checks the crate with these texts in place of its own."""
        for path, text in {**self.sound, **texts}.items():
            with open(f"{self.folder}/{path}", "w", encoding="utf-8") as file:
                file.write(text)
        answer = self.prover.check(self.folder, kept, only)
        self.seconds += answer.seconds
        return answer

    def tried(self, texts: Mapping[str, str], only: Iterable[str] | None) -> Answer:
        """Checks the crate with these texts over a copy of what the control kept."""
        over = f"{self.room}/over"
        shutil.copytree(self.kept, over)
        try:
            self.rounds += 1
            return self.checked(texts, over, only)
        finally:
            shutil.rmtree(over)

    def choose(self) -> tuple[list[Mutant], Mapping[str, str]]:
        """Returns the mutants of the next round, which fit together, and the texts with them."""
        texts: Mapping[str, str] = self.sound
        chosen, edited = list[Mutant](), set[str]()
        for it in self.left:
            functions = {*self.functions_of(it)}
            is_alone = chosen and (it in self.alone or chosen[0] in self.alone)
            hidden = self.apart.get(it, set()) & edited or self.hides(functions, chosen)
            if is_alone or hidden or functions & edited:
                continue
            try:
                texts = it.applied(texts)
            except mutant_edits.BadEdit:
                continue
            chosen.append(it)
            edited |= functions
        return chosen, texts

    def hides(self, functions: set[str], chosen: list[Mutant]) -> bool:
        """Returns whether a mutant of these functions hides what one of the chosen comes to."""
        return any(functions & self.apart.get(it, set()) for it in chosen)

    def round(self) -> None:
        """Tries some mutants at once. Each is refused, or is tried otherwise later."""
        chosen, texts = self.choose()
        functions = dict.fromkeys(it for mutant in chosen for it in self.functions_of(mutant))
        answer = self.tried(texts, [self.below_crate(it) for it in functions])
        unread = answer.unread({path for it in chosen for path, *_ in it.pairs})
        if len(chosen) == 1:
            self.judge_alone(chosen[0], answer, unread)
        elif unread or not answer.has_ended():
            # The first line names the file of a mutant that does not compile.
            at = unread.removeprefix("./").partition(":")[0]
            named = [it for it in chosen if at in [path for path, *_ in it.pairs]]
            self.alone.update(named or chosen)
        else:
            self.judge(chosen, answer)

    def judge(self, chosen: list[Mutant], answer: Answer) -> None:
        """Says which of the mutants of a round are refused for their own sake, and which others are to be tried
        apart or alone."""
        refused = {*answer.refused()}
        own = {it: {name for f in self.functions_of(it) for name in answer.of(f)} for it in chosen}
        for mutant in chosen:
            if own[mutant] & refused:
                self.settle(mutant, True, self.named_in(self.functions_of(mutant), own[mutant] & refused))
                continue
            culprits = set().union(*(answer.culprits(it) for it in self.functions_of(mutant)))
            others = [it for it in chosen if it is not mutant and own[it] & culprits]
            self.apart.setdefault(mutant, set()).update(f for it in others for f in self.functions_of(it))
            if not others:
                self.alone.add(mutant)

    def named_in(self, functions: list[str], refused: Iterable[str]) -> str:
        """Returns the names of these functions, or those of the functions among the refused ones."""
        own = [it for it in functions if it in refused]
        return ", ".join(self.below_crate(it) for it in own or sorted(refused))

    def judge_alone(self, mutant: Mutant, answer: Answer, unread: str) -> None:
        """Says what a mutant came to that was tried alone. If it is not refused there, it is tried by a check of
        the whole crate."""
        functions, refused = self.functions_of(mutant), answer.refused()
        own = {name for it in functions for name in answer.of(it)} & {*refused}
        if unread:
            self.settle(mutant, False, f"BAD EDIT: {unread[:200]}")
        elif answer.is_at_a_limit():
            name = self.below_crate(functions[0])
            self.settle(mutant, True, f"{name}, only by a limit of the prover")
        elif not answer.has_ended():
            self.settle(mutant, False, f"NOT TRIED: {answer.end()}")
        elif own:
            self.settle(mutant, True, self.named_in(functions, own))
        else:
            self.judge_others(mutant, refused)

    def judge_others(self, mutant: Mutant, refused: list[str]) -> None:
        """Says that a mutant is refused in another function than its own; if it is in none, it is to be tried by
        a check of the whole crate."""
        first = next((it for it in refused if self.is_proved_without(it)), None)
        if first:
            self.settle(mutant, True, self.below_crate(first))
        else:
            self.left.remove(mutant)
            self.wholly.append(mutant)

    def is_proved_without(self, function: str) -> bool:
        """Returns whether a function is proved without a mutant, and asks the prover if that is not known."""
        if function not in self.proved:
            self.proved |= self.checked({}, self.kept, [self.below_crate(function)]).proved()
        return function in self.proved

    def try_wholly(self, mutant: Mutant) -> None:
        """Tries a mutant by a check of the whole crate, in which it may be refused anywhere."""
        answer = self.tried(mutant.applied(self.sound), None)
        unread = answer.unread({path for path, *_ in mutant.pairs})
        first = next((it for it in answer.refused() if self.is_proved_without(it)), None)
        if unread:
            self.settle(mutant, False, f"BAD EDIT: {unread[:200]}")
        elif answer.is_at_a_limit():
            self.settle(mutant, True, "only by a limit of the prover")
        elif answer.status == 0:
            self.settle(mutant, False, "NOT REFUSED: the crate is still proved with it")
        elif first:
            self.settle(mutant, True, f"{self.below_crate(first)}, by a check of the whole crate")
        else:
            self.settle(mutant, False, f"NOT TRIED: {answer.end()}")
