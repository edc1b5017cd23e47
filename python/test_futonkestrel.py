"""The module against the examples, the header and the Rust crate's words."""

import ctypes
import inspect
import random
import re
import unittest
from pathlib import Path

import futonkestrel as fk
import wander

ROOT = Path(__file__).parent.parent


def example(name: str) -> bytes:
    return (ROOT / "examples" / name).read_bytes()


class Examples(unittest.TestCase):
    def test_listings(self) -> None:
        for name in ["lesson", "m"]:
            model = fk.Model(example(f"{name}/model.bin"))
            script = example(f"{name}/script.bin")
            wanted = example(f"{name}/listing.txt").decode()
            self.assertEqual(model.listing(script), wanted)
            self.assertEqual(model.table().listing(script), wanted)

    def test_runs(self) -> None:
        model, script = fk.Model(example("m/model.bin")), example("m/script.bin")
        for runs in [model, model.table()]:
            self.assertEqual(runs.run(script), fk.Run(None, 7, 4))
            run = runs.run(script[:10] + fk.tick(3))
            self.assertEqual((run.taken, run.clock), (3, 0))
            self.assertEqual((run.refusal.number, run.refusal.start, run.refusal.end), (10, 10, 13))

    def test_steps_have_the_values_of_the_model(self) -> None:
        model, script = fk.Model(example("lesson/model.bin")), example("lesson/script.bin")
        table = model.table()
        variables, before = table.start(), b""
        for event in fk.events(script):
            table.step(variables, event)
            answer, shown = model.after(before, event)
            self.assertEqual(answer, 0)
            due_and_end = range(64, 96)
            for number in set(range(fk.VARIABLES)) - set(due_and_end):
                self.assertEqual(shown[number], variables[number])
            before += event
        self.assertEqual(variables[0], 62)


class Sizes(unittest.TestCase):
    """How long a table is, before it is made."""

    # The bytes of a table's records by their kinds: start, rule, clause, atom, update.
    LENGTHS = {0x20: 7, 0x21: 11, 0x22: 1, 0x23: 9, 0x24: 17}

    def counted(self, table: bytes) -> fk.Size:
        kinds, place = [], 0
        while place < len(table):
            kinds.append(table[place])
            place += self.LENGTHS[table[place]]
        return fk.Size(len(table), *(kinds.count(kind) for kind in range(0x21, 0x25)))

    def test_of_the_examples(self) -> None:
        for name in ["lesson", "m"]:
            model = fk.Model(example(f"{name}/model.bin"))
            self.assertEqual(model.table_size(), self.counted(model.table().data))
        size = fk.Model(example("m/model.bin")).table_size()
        self.assertEqual(size, fk.Size(1065, 14, 38, 38, 30))

    def test_room_of_the_size_told(self) -> None:
        data = example("lesson/model.bin")
        size = fk.Model(data).table_size().bytes
        output = (ctypes.c_uint8 * size)()
        for room, number in [(size - 1, 8), (size, 0)]:
            told = (ctypes.c_size_t * 3)()
            answer = fk._library.fk_translate(data, len(data), output, room, told, len(told))
            self.assertEqual((answer, told[2]), (number, 0 if number else size))

    def test_of_refused_models(self) -> None:
        for data, number, part in [(b"", 2, [0, 0]), (b"\x01\x01", 1, [0, 2])]:
            told = (ctypes.c_size_t * 8)(*[7] * 8)
            answer = fk._library.fk_table_size(data, len(data), told, len(told))
            self.assertEqual((answer, list(told)), (number, [*part, 0, 0, 0, 0, 0, 7]))


class SideBySide(unittest.TestCase):
    """A model on a state and its table on variables."""

    def test_the_same_is_enabled_and_shown(self) -> None:
        for name in ["lesson", "m"]:
            model = fk.Model(example(f"{name}/model.bin"))
            table = model.table()
            state, variables = model.start(), table.start()
            for event in fk.events(example(f"{name}/script.bin")):
                enabled = model.enabled(state)
                self.assertEqual(enabled, table.enabled(variables))
                kinds = {(offer.kind, offer.id) for offer in enabled.events}
                is_tick = event[0] == 0x0B
                self.assertTrue(enabled.tick if is_tick else (event[0], event[1]) in kinds)
                model.step(state, event)
                table.step(variables, event)
                shown = model.variables(state)
                for number in range(fk.VARIABLES):
                    if number not in range(64, 96) or shown[number]:
                        self.assertEqual(shown[number], variables[number], number)

    def test_input_ports_begin_where_the_model_says(self) -> None:
        ports = bytes([0x03, 0, 0x0B, 0]) + (-2).to_bytes(4, "little", signed=True)
        model = fk.Model(example("m/model.bin") + ports)
        variables = model.table().start()
        for first in [160, 192]:
            self.assertEqual([variables[first + port] for port in range(3)], [0, -2, 0])
        self.assertEqual(model.variables(model.start()), variables)

    def test_due_and_end_of_a_job(self) -> None:
        model, script = fk.Model(example("m/model.bin")), example("m/script.bin")
        state, shown = model.start(), []
        for event in fk.events(script):
            model.step(state, event)
            variables = model.variables(state)
            shown.append((variables[64], variables[80]))
        self.assertEqual(shown, [(0, 0), (4, 0), (4, 2), (4, 2), (4, 0), (4, 0), (0, 0)])

    def test_states_are_kept_and_gone_back_to(self) -> None:
        model = fk.Model(example("m/model.bin"))
        state = model.start()
        kept = state.copy()
        self.assertEqual(model.answer(state, fk.dispatch(0)), 10)
        self.assertEqual(model.answer(state, b""), 9)
        with self.assertRaises(fk.Refusal) as caught:
            model.step(state, fk.start(0, 6))
        self.assertEqual((caught.exception.number, caught.exception.end), (10, 6))
        self.assertEqual(state, kept)
        model.step(state, fk.activate(0))
        self.assertNotEqual(bytes(state), bytes(kept))
        model.step(kept, fk.activate(0))
        self.assertEqual(state, kept)
        self.assertNotEqual(model.start(), model.variables(model.start()))

    def test_offers(self) -> None:
        model = fk.Model(example("m/model.bin"))
        state = model.start()
        self.assertEqual(model.enabled(state), fk.Enabled((fk.Offer(1, 0, 0, 0),), False))
        model.step(state, fk.activate(0))
        model.step(state, fk.dispatch(0))
        [offer] = model.enabled(state).events
        self.assertEqual(offer, fk.Offer(4, 0, 1, 5))
        self.assertEqual((offer.event(), offer.event(3)), (fk.start(0, 1), fk.start(0, 3)))
        model.step(state, offer.event(5))
        self.assertEqual(model.enabled(state), fk.Enabled((), True))

    def test_many_rules_are_enabled(self) -> None:
        # Rules without clauses always hold; of two for one event it is refused.
        rules = [bytes([0x21, 0x08, number]) + bytes(8) for number in range(100)]
        table = fk.Table(b"".join(reversed(rules)) + rules[0])
        variables = table.start()
        numbers = [offer.id for offer in table.enabled(variables).events]
        self.assertEqual(numbers, [0, *range(100)])
        self.assertEqual(table.answer(variables, fk.request(0)), 12)
        self.assertEqual(table.answer(variables, fk.request(1)), 0)


class Leaving(unittest.TestCase):
    """Threads that the new mode does not have, with a job in hand."""

    # Two modes; thread 0 is critical, thread 1 is not, and both are in the first alone.
    MODEL = bytes.fromhex(
        "010200"
        "02 02000000 02000000 01000000 01000000 01 01 00"
        "02 04000000 04000000 01000000 03000000 01 00 00"
        "070001"
    )
    # Up to clock 2, where thread 0 is dispatched again and thread 1 has run for 1 of 3.
    EVENTS = [
        *(fk.activate(0), fk.activate(1), fk.dispatch(0), fk.dispatch(1)),
        *(fk.start(0, 1), fk.tick(1), fk.complete(0), fk.start(1, 3)),
        *(fk.request(0), fk.tick(1), fk.deadline(0), fk.dispatch(0), fk.enter(0)),
    ]
    # Cpu, State of both threads, End of thread 1.
    SHOWN = [5, 32, 33, 81]

    def shown(self, model: fk.Model, at: fk.State | fk.Variables) -> list[int]:
        variables = at if isinstance(at, fk.Variables) else model.variables(at)
        return [variables[number] for number in self.SHOWN]

    def test_one_finishes_and_one_is_stopped(self) -> None:
        model = fk.Model(self.MODEL)
        table = model.table()
        for machine, at in [(model, model.start()), (table, table.start())]:
            for event in self.EVENTS:
                machine.step(at, event)
            kept = at.copy()
            for refused in [fk.tick(1), fk.deactivate(0)]:
                self.assertEqual(machine.answer(at, refused), 10)
            self.assertEqual(at, kept)
            self.assertEqual(self.shown(model, at), [1, 2, 3, 4])
            machine.step(at, fk.deactivate(1))
            self.assertEqual(self.shown(model, at), [255, 2, 0, 0])
            machine.step(at, fk.start(0, 1))
            self.assertEqual(self.shown(model, at), [0, 3, 0, 0])


class Sums(unittest.TestCase):
    """Sums and differences outside of 32 bits are the nearest end."""

    # Behind M: two outputs, a local at each end, and a transition whose sums lie outside:
    # local 0 + 1, local 1 - 1, 0 - local 1, local 1 + -1.
    PAST_THE_ENDS = bytes.fromhex(
        "0400 0400 0500 ffffff7f 0500 00000080"
        "08000000"
        "0a020001 02 00000000 00 01000000"
        "0a020102 02 01000000 00 01000000"
        "0a030002 00 00000000 02 01000000"
        "0a030101 02 01000000 00 ffffffff"
    )

    def test_they_stop_at_the_ends(self) -> None:
        model = fk.Model(example("m/model.bin") + self.PAST_THE_ENDS)
        table = model.table()
        state, variables = model.start(), table.start()
        for event in [fk.activate(0), fk.dispatch(0), fk.start(0, 1), fk.tick(1), fk.complete(0)]:
            model.step(state, event)
            table.step(variables, event)
        least, most = -(1 << 31), (1 << 31) - 1
        for shown in [model.variables(state), variables]:
            self.assertEqual([shown[224], shown[225]], [most, least])
            self.assertEqual([shown[256], shown[257]], [most, least])


class StartTests(unittest.TestCase):
    """The test for START, on a state and after a script."""

    def test_along_the_examples(self) -> None:
        for name, steps in [("lesson", set(fk.StartStep)), ("m", {0, 1, 4})]:
            model = fk.Model(example(f"{name}/model.bin"))
            state, before, seen = model.start(), b"", set()
            for event in fk.events(example(f"{name}/script.bin")):
                for thread in range(5):
                    for length in range(8):
                        step = model.start_test(state, thread, length)
                        self.assertEqual(model.start_test_after(before, thread, length), step)
                        answer = model.answer(state.copy(), fk.start(thread, length))
                        self.assertEqual(answer, 10 if step else 0)
                        seen.add(step)
                model.step(state, event)
                before += event
            self.assertEqual(seen, steps)

    def test_in_its_order(self) -> None:
        model = fk.Model(example("lesson/model.bin"))
        # All four threads dispatched at clock 0, then the first started.
        dispatched = example("lesson/script.bin")[:16]
        started = dispatched + fk.start(0, 2)
        for script, thread, length, step in [
            (b"", 0, 2, fk.StartStep.STATE),
            (dispatched, 0, 2, fk.StartStep.NONE),
            (dispatched, 0, 9, fk.StartStep.LENGTH),
            (dispatched, 1, 9, fk.StartStep.CONNECTIONS),
            (started, 1, 9, fk.StartStep.PROCESSOR),
            (started, 0, 9, fk.StartStep.STATE),
            (dispatched + fk.dispatch(0) + b"\x0c" + started, 0, 2, fk.StartStep.NONE),
        ]:
            self.assertIs(model.start_test_after(script, thread, length), step)

    def test_any_thread_and_length(self) -> None:
        model, script = fk.Model(example("m/model.bin")), example("m/script.bin")[:4]
        state = model.start()
        for event in fk.events(script):
            model.step(state, event)
        most = (1 << 32) - 1
        for thread, length, step in [(0, 1, 0), (0, most, 4), (1, 1, 1), (256, 1, 1), (most, 1, 1)]:
            self.assertEqual(model.start_test(state, thread, length), step)
            self.assertEqual(model.start_test_after(script, thread, length), step)
        for asked in [(-1, 1), (0, -1), (most + 1, 1), (0, most + 2)]:
            with self.assertRaises(OverflowError):
                model.start_test(state, *asked)
            with self.assertRaises(OverflowError):
                model.start_test_after(script, *asked)

    def test_no_step_of_a_refused_model(self) -> None:
        data = example("m/model.bin")[:-1]
        told = (ctypes.c_size_t * 4)(*[7] * 4)
        answer = fk._library.fk_start_test(data, len(data), b"", 0, 0, 1, told, len(told))
        self.assertEqual((answer, list(told)), (1, [3, len(data), 7, 7]))

    def test_no_step_in_a_short_state(self) -> None:
        words, state = (ctypes.c_uint32 * fk.MODEL_WORDS)(), fk.State()
        for count, wanted in [(0, (8, 7)), (fk.STATE_WORDS - 1, (8, 7)), (fk.STATE_WORDS, (0, 1))]:
            told = (ctypes.c_size_t * 1)(7)
            answer = fk._library.fk_model_start_test(
                words, len(words), state._values, count, 0, 1, told, len(told)
            )
            self.assertEqual((answer, told[0]), wanted)


class Refusals(unittest.TestCase):
    def test_of_models_and_tables(self) -> None:
        for sort, data, number, part in [
            (fk.Model, b"", 2, (0, 0)),
            (fk.Model, b"\x01\x01", 1, (0, 2)),
            (fk.Model, b"\x01\x09\x09", 14, (0, 3)),
            (fk.Model, b"\x01\x09\x08", 4, (0, 3)),
            (fk.Model, example("m/model.bin") + b"\x03\x01", 14, (23, 25)),
            (fk.Model, example("m/model.bin").replace(b"\x04", b"\x06"), 15, (3, 23)),
            (fk.Table, b"\x22", 2, (0, 1)),
            (fk.Table, b"\x20\x20\x01" + bytes(4), 14, (0, 7)),
            (fk.Table, b"\x20\x00\x00" + bytes(4), 4, (0, 7)),
        ]:
            with self.assertRaises(fk.Refusal) as caught:
                sort(data)
            refusal = caught.exception
            self.assertEqual((refusal.number, (refusal.start, refusal.end)), (number, part))
            told = (refusal.holder, refusal.cause, refusal.remedy)
            self.assertEqual(told, fk.MEANINGS[number])
            self.assertEqual(refusal.holder, "model")
            self.assertIn(refusal.cause, str(refusal))

    def test_of_events_change_nothing(self) -> None:
        table = fk.Model(example("m/model.bin")).table()
        variables = table.start()
        kept = variables.copy()
        self.assertEqual(table.answer(variables, fk.dispatch(0)), 10)
        self.assertEqual(table.answer(variables, b"\x04"), 9)
        with self.assertRaises(fk.Refusal) as caught:
            table.step(variables, fk.start(0, 6))
        self.assertEqual((caught.exception.number, caught.exception.end), (10, 6))
        self.assertEqual(caught.exception.holder, "script")
        self.assertEqual(variables, kept)
        table.step(variables, fk.activate(0))
        self.assertNotEqual(bytes(variables), bytes(kept))

    def test_words_are_those_of_the_crate(self) -> None:
        text = (ROOT / "rust/src/refusals.rs").read_text()
        told = re.findall(r'meaning\(\s*(\d+),\s*Holder::(\w+),\s*"(.*)",\s*"(.*)",\s*\)', text)
        wanted = [
            (int(number), fk.Meaning(holder.lower(), cause, remedy))
            for number, holder, cause, remedy in told
        ]
        self.assertEqual(list(fk.MEANINGS.items()), wanted)


class Library(unittest.TestCase):
    def test_every_function_of_the_header_has_types(self) -> None:
        header = (ROOT / "c/futonkestrel.h").read_text()
        functions = re.findall(r"^\w+ (fk_\w+)\(([^;]*)\);", header, re.MULTILINE)
        self.assertGreater(len(functions), 16)
        for name, arguments in functions:
            function = getattr(fk._library, name)
            self.assertIsNotNone(function.argtypes, name)
            wanted = [] if arguments == "void" else arguments.split(",")
            self.assertEqual(len(function.argtypes), len(wanted), name)

    def test_every_function_of_the_module_has_types(self) -> None:
        sorts = [fk.Model, fk.Table, fk.Refusal, fk.Variables, fk.State]
        functions = inspect.getmembers(fk, inspect.isfunction)
        for sort in sorts:
            functions += inspect.getmembers(sort, inspect.isfunction)
        own = [(name, one) for name, one in functions if one.__module__ == fk.__name__]
        self.assertGreater(len(own), 20)
        for name, function in own:
            signature = inspect.signature(function)
            self.assertIsNot(signature.return_annotation, inspect.Signature.empty, name)
            for parameter in signature.parameters.values():
                typed = parameter.annotation is not inspect.Parameter.empty
                self.assertTrue(typed or parameter.name == "self", (name, parameter))

    def test_constants_of_the_header(self) -> None:
        header = (ROOT / "c/futonkestrel.h").read_text()
        constants = dict(re.findall(r"^#define FK_(\w+) (\d+)$", header, re.MULTILINE))
        self.assertEqual(int(constants["VARIABLES"]), fk.VARIABLES)
        self.assertEqual(int(constants["LONGEST_MADE_TABLE"]), fk.LONGEST_MADE_TABLE)
        self.assertEqual(int(constants["MODEL_WORDS"]), fk.MODEL_WORDS)
        self.assertEqual(int(constants["STATE_WORDS"]), fk.STATE_WORDS)
        self.assertEqual(fk._library.fk_model_words(), fk.MODEL_WORDS)
        self.assertEqual(fk._library.fk_state_words(), fk.STATE_WORDS)

    def test_a_refused_model_leaves_the_numbers(self) -> None:
        data, marks = example("m/model.bin"), [7] * fk.MODEL_WORDS
        for model, room, number in [
            (data, fk.MODEL_WORDS - 1, 8),
            (data[:-1], fk.MODEL_WORDS, 1),
            (data[:-1], 0, 1),
        ]:
            words = (ctypes.c_uint32 * fk.MODEL_WORDS)(*marks)
            told = fk._library.fk_model_read(model, len(model), words, room, None, 0)
            self.assertEqual((told, list(words)), (number, marks))

    def test_variables(self) -> None:
        variables = fk.Variables()
        variables[287] = -5
        other = variables.copy()
        self.assertEqual((len(variables), other[287], variables == other), (288, -5, True))
        other[0] = 1
        self.assertNotEqual(variables, other)
        with self.assertRaises(IndexError):
            variables[288]
        with self.assertRaises(TypeError):
            hash(variables)
        self.assertEqual(len(bytes(variables)), ctypes.sizeof(ctypes.c_int32) * 288)

    def test_events(self) -> None:
        script = example("lesson/script.bin")
        self.assertEqual(b"".join(fk.events(script)), script)
        self.assertEqual(len(list(fk.events(script))), 101)
        self.assertEqual(list(fk.events(b"\x01\x00\x0b\x01")), [b"\x01\x00", b"\x0b\x01"])
        self.assertEqual(fk.event_length(b""), 0)


class Wandering(unittest.TestCase):
    def test_a_miss_is_found_and_replayed(self) -> None:
        for name in ["lesson", "m"]:
            model = fk.Model(example(f"{name}/model.bin"))
            script = wander.wander(model, 10_000, random.Random(1))
            self.assertIsNotNone(script)
            lines = model.listing(script).splitlines()
            self.assertEqual(lines[-2].split()[2], "7")
            self.assertEqual(lines[-1].split()[2], "0")


if __name__ == "__main__":
    unittest.main()
