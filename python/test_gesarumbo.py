#!/usr/bin/env python3
"""Tests of gesarumbo.py: its tables against the C header, its documentation's example, its own refusals, and every vector of
tests/vectors through its calls. GESARUMBO_LIBRARY names the shared library.

    python/test_gesarumbo.py [FOLDER]     FOLDER has the file, else it is the one beside this
"""
import array
import doctest
import glob
import os
import sys
import unittest

HERE = os.path.dirname(os.path.abspath(__file__))
sys.path.insert(0, os.path.join(HERE, '..', 'tools'))
sys.path.insert(0, sys.argv.pop() if len(sys.argv) == 2 else HERE)

import gesarumbo
import header
from gesarumbo import ALL, Layout, Refused, ScrubRecord, box, field256, field257

# Requests that have landed: a case that one of them changed is answered by another file.
LANDED = {'W2', 'W4', 'W5', 'W12'}


class Header(unittest.TestCase):
    """The tables of the file say what the header says."""

    LETTERS = {'gesarumbo_layout': 'L', 'uint32_t': 'n', 'uint64_t': 'N', 'gesarumbo_scrub_record': 's', 'gesarumbo_scrub_record *': 'S'}

    def letters(self, call):
        """A call's parameters in the letters of the table, lengths left out."""
        out = ''
        for kind, name in call.parameters:
            if kind == 'size_t' and name == 'many':
                out += 'z'
            elif kind == 'size_t':
                self.assertRegex(name, 'length$|count$')
            elif kind in self.LETTERS:
                out += self.LETTERS[kind]
            else:
                read = kind.startswith('const ')
                element = kind[6:] if read else kind
                symbols = 'uint16_t *' if call.name.startswith('gesarumbo257_') else 'uint8_t *'
                if element == 'uint32_t *':
                    out += 'l' if read else 'm'
                elif call.name.startswith(('gesarumbo_box_', 'gesarumbo_checksum')) or name in ('image', 'images', 'states'):
                    self.assertEqual(element, 'uint8_t *')
                    out += 'b' if read else 'B'
                else:
                    self.assertEqual(element, symbols)
                    out += 'r' if read else 'w'
        return out

    def test_calls(self):
        said = {}
        for call in header.calls():
            gives = {'uint32_t': '', 'uint64_t': 'checksum', 'gesarumbo257_image': '257_image'}.get(call.gives, call.gives.replace('gesarumbo_', ''))
            said[call.name] = (gives, self.letters(call))
        self.assertEqual(gesarumbo._CALLS, said)

    def test_structs(self):
        kinds = {'uint32_t': 'c_uint', 'uint64_t': 'c_ulong', 'size_t': 'c_ulong', 'int32_t': 'c_int', 'gesarumbo_scrub_record': 'ScrubRecord'}
        for name, parts in header.structs().items():
            if name == 'gesarumbo_layout':
                mine = gesarumbo._Layout
            elif name == 'gesarumbo_scrub_record':
                mine = ScrubRecord
            else:
                mine = gesarumbo._ANSWERS['257_image' if name == 'gesarumbo257_image' else name.replace('gesarumbo_', '')]
            self.assertEqual([(part, kind.__name__) for part, kind in mine._fields_], [(part, kinds[kind]) for kind, part in parts], name)

    def test_words_and_version(self):
        self.assertEqual(list(gesarumbo.WORDS), header.words())
        self.assertEqual(gesarumbo.__version__, header.version())

    def test_every_call_has_a_method(self):
        for name in gesarumbo._CALLS:
            _, _, plain = name.partition('_')
            if plain.startswith('box_'):
                self.assertTrue(callable(getattr(box, plain[4:])))
            elif plain == 'checksum':
                self.assertTrue(callable(gesarumbo.checksum))
            elif plain == 'measure':
                self.assertTrue(callable(field256.sizes))
            else:
                self.assertTrue(callable(getattr(field257 if '257' in name else field256, plain)), name)


class Manners(unittest.TestCase):
    """What Python's side refuses, and what it makes."""

    layout = Layout(4, 3, 8, 3)

    def test_the_example_of_the_documentation(self):
        self.assertEqual(doctest.testmod(gesarumbo).failed, 0)
        self.assertGreater(doctest.testmod(gesarumbo).attempted, 5)

    def test_a_refusal_has_number_and_words(self):
        codeword = bytearray(b'\x5a' * 192)
        with self.assertRaises(Refused) as caught:
            field256.recover(self.layout, codeword, [0, 1, 4, 5, 11])
        self.assertEqual((caught.exception.number, caught.exception.words), (5, gesarumbo.WORDS[5]))
        self.assertEqual(codeword, b'\x5a' * 192)

    def test_numbers_that_do_not_fit(self):
        for wrong in (-1, 2**32):
            with self.assertRaises(OverflowError):
                field256.share(self.layout, wrong, 1, bytes(48))
            with self.assertRaises(OverflowError):
                field256.recover(self.layout, bytearray(192), [wrong])
            with self.assertRaises(OverflowError):
                field256.sizes(Layout(wrong, 3, 8, 3))

    def test_buffers_of_another_kind(self):
        with self.assertRaises(TypeError):
            field256.test(self.layout, array.array('H', [0] * 192))
        with self.assertRaises(TypeError):
            field257.test(Layout(5, 4, 15, 4), bytes(640))
        with self.assertRaises(TypeError):
            field256.recover(self.layout, bytes(192), [])
        with self.assertRaises(TypeError):
            field256.test(self.layout, memoryview(bytes(384))[::2])

    def test_overlapping_buffers(self):
        room = bytearray(400)
        view = memoryview(room)
        with self.assertRaises(ValueError):
            field256.store(self.layout, view[:128], view[100:292])
        field256.store(self.layout, view[:128], view[128:320])

    def test_many_calls_side_by_side(self):
        import threading

        answers = []

        def work(seed):
            codeword = field256.store(self.layout, bytes((seed + i) % 256 for i in range(128)))
            answers.append(all(field256.test(self.layout, codeword).sound for _ in range(50)))

        threads = [threading.Thread(target=work, args=(seed,)) for seed in range(4)]
        for thread in threads:
            thread.start()
        for thread in threads:
            thread.join()
        self.assertEqual(answers, [True] * 4)


def token(said):
    """A token of a vector as what the calls take."""
    if said.startswith('x'):
        return bytearray.fromhex(said[1:])
    if said.startswith('w'):
        return array.array('H', [int(said[i : i + 4], 16) for i in range(1, len(said), 4)])
    if said.startswith('['):
        return [int(number) for number in said[1:-1].split(',') if number]
    if ',' in said:
        return Layout(*map(int, said.split(',')))
    return int(said)


def shown(buffer):
    if isinstance(buffer, array.array) and buffer.typecode == 'H':
        return 'w' + ''.join('%04x' % number for number in buffer)
    if isinstance(buffer, (array.array, list)):
        return '[%s]' % ','.join(map(str, buffer))
    return 'x' + bytes(buffer).hex()


def part(found, codeword, spare):
    source = codeword if found.source == gesarumbo.STORE else spare
    return shown(source[found.offset : found.offset + found.length])


def replies(field):
    """For each call of the vectors what it gives by this field's calls, as tokens; the buffers that must come back unchanged
    where it is refused are named by their places among the inputs."""

    def walk(layout, codeword, record, budget):
        kept, moving = ScrubRecord(*record), ScrubRecord(*record)
        found = field.scrub(layout, codeword, kept, budget)
        report = field.scrub_in_place(layout, codeword, moving, budget)
        assert (report, moving, kept) == (found.report, found.record, ScrubRecord(*record))
        return [found.report, *found.record.numbers()]

    def walk_reset(layout, record):
        moving = ScrubRecord(*record)
        field.scrub_reset_in_place(layout, moving)
        assert moving == field.scrub_reset(layout, ScrubRecord(*record))
        return [*moving.numbers()]

    def read_image(layout, volume, image):
        found = field.read_image(layout, volume, image)
        return [found.tray, 24, len(found.symbols), shown(found.symbols)]

    def read_image2(layout, volume, image, places):
        return [field.read_image(layout, volume, image, places).tray, shown(places)]

    def gather(layout, volume, images, out, missing):
        lent = array.array('I', missing)
        found = field.gather(layout, volume, images, out, lent)
        assert found.missing == list(lent[: len(found.missing)])
        return [len(found.missing), shown(out), shown(lent)]

    def read_part(layout, codeword, spare, *rest):
        found = field.read_part(layout, codeword, spare, *rest)
        return [*found, part(found, codeword, spare)]

    return {
        'layout': lambda layout: [(s := field.sizes(layout)).layers, s.checks, s.traffic],
        'test': lambda *given: [*field.test(*given)],
        'store': lambda *given: [shown(field.store(*given))],
        'recover': lambda layout, codeword, erased: [field.recover(layout, codeword, erased) or shown(codeword)],
        'share': lambda *given: [shown(field.share(*given))],
        'repair': lambda *given: [*field.repair(*given), shown(given[5])],
        'write_image': lambda *given: [shown(field.write_image(*given))],
        'read_image': read_image,
        'read_image2': read_image2,
        'margin': lambda *given: [field.margin(*given)],
        'share_e': lambda *given: [shown(field.share_many(*given))],
        'repair_e': lambda *given: [*field.repair_many(*given), shown(given[5])],
        'walk_reset': walk_reset,
        'walk': walk,
        'read_part': read_part,
        'share_add': lambda *given: [field.share_add(*given) or shown(given[4])],
        'share_add_e': lambda *given: [field.share_add_many(*given) or shown(given[5])],
        'repair_wrong': lambda *given: [*field.repair_correcting(*given), shown(given[5])],
        'card_print': lambda *given: [shown(field.card(*given))],
        'card_test': lambda layout, lost, helpers, group, card: field.card_test(layout, lost, helpers, card, group) or [],
        'card_repair': lambda layout, lost, helpers, shares, host, spare, group, card: [
            *field.card_repair(layout, lost, helpers, card, shares, host, spare, group),
            shown(spare),
        ],
        'recover_correcting': lambda *given: [*field.recover_correcting(*given), shown(given[1])],
        'test_kept': lambda *given: [*field.test_kept(*given)],
        'store_batch': lambda *given: [shown(field.store_batch(*given))],
        'share_batch': lambda *given: [shown(field.share_batch(*given))],
        'repair_batch': lambda *given: [*field.repair_batch(*given), shown(given[6])],
        'states': lambda *given: [shown(field.states(*given))],
        'gather': gather,
        'gather_rack': lambda *given: [shown(field.gather_rack(*given))],
        'checksum': lambda start, data: [gesarumbo.checksum(data, start)],
        'box_store': lambda *given: [shown(box.store(*given))],
        'box_recover': lambda values, erased: [box.recover(values, erased) or shown(values)],
        'box_data': lambda *given: [shown(box.data(*given))],
        'box_share': lambda *given: [shown(box.share(*given))],
        'box_repair': lambda *given: [box.repair(*given), shown(given[4])],
    }


class Vectors(unittest.TestCase):
    """Every case of the vectors through the calls of this file."""

    def case(self, calls, line):
        asked, _, expected = line.partition(' > ')
        call, name, until, *inputs = asked.split(' ')
        if call not in calls:
            return 'unknown'
        if LANDED & set(until.split(',')):
            return 'skipped'
        given = [token(said) for said in inputs]
        expected = expected.split(' ')
        try:
            found = ['0', *map(str, calls[call](*given))]
        except Refused as refused:
            # what was lent is as it came; the other numbers are 0, which Python does not hand out
            self.assertEqual(expected[0], str(refused.number), name)
            self.assertEqual([shown(value) for value in given if isinstance(value, (bytearray, array.array))],
                             [said for said in inputs if said[0] in 'xw'], name)
            return 'refused'
        # a buffer that is as it was on entry is written ~
        for place, said in enumerate(expected):
            if said == '~':
                self.assertIn(found[place], inputs, name)
                found[place] = '~'
        self.assertEqual(found, expected, name)
        return 'done'

    def test_vectors(self):
        counts = {}
        files = sorted(glob.glob(os.path.join(HERE, '..', 'tests', 'vectors', '*.txt')))
        self.assertGreater(len(files), 15)
        for file in files:
            with open(file, encoding='ascii') as opened:
                lines = opened.read().splitlines()
            calls = replies(field257 if 'field=257' in lines[0] else field256)
            for line in filter(lambda line: line and not line.startswith('#'), lines):
                result = self.case(calls, line)
                counts[result] = counts.get(result, 0) + 1
        print('vectors through Python: %s' % ', '.join('%d %s' % (counts[kind], kind) for kind in sorted(counts)))
        self.assertGreater(counts['done'], 2000)
        self.assertGreater(counts['refused'], 2000)
        self.assertNotIn('unknown', counts)


if __name__ == '__main__':
    unittest.main()
