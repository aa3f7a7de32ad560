"""Tests of tools/tokens: run with python3 tools/test_tokens.py."""
import random
import struct
import subprocess
import sys
import unittest

sys.dont_write_bytecode = True
import scripts

TOOL = scripts.path_of("tokens")
tokens = scripts.load("tokens")


def run(*arguments, given=b""):
    done = subprocess.run([sys.executable, TOOL, *arguments], input=given, capture_output=True)
    return done.returncode, done.stdout, done.stderr


class Words(unittest.TestCase):
    def test_signs_and_words(self):
        self.assertEqual(tokens.to_words("a + b ; { }"), "0700 0801 0700 080B 0812 0813 0200")
        self.assertEqual(tokens.to_words("! ~ => :: $ ++ --"), "080E 0818 0824 0827 0828 081D 081E 0200")
        self.assertEqual(tokens.to_words("if async none iff"), "0901 091B 0909 0700 0200")

    def test_there_are_41_operators_and_28_keywords(self):
        self.assertEqual((len(tokens.SIGNS), len(tokens.WORDS)), (41, 28))
        self.assertEqual(len(tokens.TEXTS), 41 + 28 + 4)

    def test_the_longest_sign_wins(self):
        self.assertEqual(tokens.to_words("a=>b"), tokens.to_words("a => b"))
        self.assertEqual(tokens.to_words("a+++b"), tokens.to_words("a ++ + b"))
        self.assertNotEqual(tokens.to_words("a = > b"), tokens.to_words("a => b"))
        self.assertNotEqual(tokens.to_words("a : : b"), tokens.to_words("a :: b"))

    def test_other_classes(self):
        text = "12 1.5 'c' \"s\" _E _I _U _EOF _SInvalid _KInvalid #0B00"
        words = "0300 0500 0600 0400 0100 0000 0A00 0200 0800 0900 0B00 0200"
        self.assertEqual(tokens.to_words(text), words)

    def test_numbers_and_dots(self):
        self.assertEqual(tokens.to_words("1 . 5"), "0300 0826 0300 0200")
        self.assertEqual(tokens.to_words("1.x"), "0300 0826 0700 0200")
        self.assertEqual(tokens.to_words("1.5e3"), "0500 0200")
        self.assertEqual(tokens.to_words("1.5else"), "0500 0902 0200")

    def test_eof(self):
        self.assertEqual(tokens.to_words(""), "0200")
        self.assertEqual(tokens.to_words("_NOEOF"), "")
        self.assertEqual(tokens.to_words("a _NOEOF"), "0700")
        self.assertEqual(tokens.from_words(""), "_NOEOF")
        self.assertEqual(tokens.from_words("0200 0200"), "_EOF")

    def test_every_word_comes_back(self):
        for word in range(0x10000):
            text = "%04X" % word
            self.assertEqual(tokens.to_words(tokens.from_words(text)), text)

    def test_random_arrays_come_back(self):
        source = random.Random(1)
        known = sorted(tokens.TEXTS) + [0x0300, 0x0400, 0x0500, 0x0600] + [0x0700] * 40 + [0x0B00]
        for _ in range(2000):
            words = " ".join("%04X" % source.choice(known) for _ in range(source.randrange(60)))
            self.assertEqual(tokens.to_words(tokens.from_words(words)), words)

    def test_faults(self):
        bad = ["@", "'ab'", "''", "\"open", "_NOEOF a", "#08", "#08001", "'\\q'", "\"\\u{41}\"",
               "9223372036854775808", "1.0e999", "#0300:00", "#0801:00", "#0700:f"]
        for text in bad:
            with self.subTest(text), self.assertRaises(tokens.Fault):
                tokens.to_words(text)
        with self.assertRaises(tokens.Fault):
            tokens.from_words("123")


class Files(unittest.TestCase):
    def test_the_worked_example(self):
        data = "07000161 08000101 07000162 08000103 07000163 020000"
        self.assertEqual(tokens.to_file("a + b * c"), bytes.fromhex(data))

    def test_payloads(self):
        fields = [
            ("name", b"\x07\x00\x04name"),
            ("258", b"\x03\x00\x08" + bytes([0, 0, 0, 0, 0, 0, 1, 2])),
            ("1.5", b"\x05\x00\x08" + struct.pack(">d", 1.5)),
            ("'c'", b"\x06\x00\x04\x00\x00\x00c"),
            ("'\\u{1F600}'", b"\x06\x00\x04\x00\x01\xF6\x00"),
            ("'\\n'", b"\x06\x00\x04\x00\x00\x00\n"),
            ("\"a\\\\\\\"\\xFF\"", b"\x04\x00\x04a\\\"\xFF"),
            ("\"\u00e9\"", b"\x04\x00\x02\xc3\xa9"),
            ("_U", b"\x0A\x00\x00"),
            ("#0A00:6162", b"\x0A\x00\x02ab"),
            ("async", b"\x09\x00\x01\x1B"),
            ("#08C8", b"\x08\x00\x01\xC8"),
        ]
        for text, field in fields:
            with self.subTest(text):
                self.assertEqual(tokens.to_file(text), field + b"\x02\x00\x00")

    def test_random_files_come_back(self):
        source = random.Random(2)
        for _ in range(3000):
            data = b"".join(self.field(source) for _ in range(source.randrange(8)))
            text = tokens.unparse(tokens.read_file(data))
            self.assertEqual(tokens.to_file(text), data, text)

    def field(self, source):
        kind = source.randrange(11)
        length = tokens.LENGTHS.get(kind)
        payload = self.text(source) if length is None else source.randbytes(length)
        return struct.pack(">BH", kind, len(payload)) + payload

    def text(self, source):
        """Letters, any characters, or bytes that are mostly no Unicode."""
        count = source.randrange(6)
        if source.random() < 0.3:
            return source.randbytes(count)
        limit = source.choice([0x80, 0x800, 0xD800])
        return "".join(chr(source.randrange(limit)) for _ in range(count)).encode()

    def test_what_is_no_unicode_comes_back(self):
        fields = [
            ("\"a\\xFF\"", b"\x04\x00\x02a\xFF"),
            ("\"\\xE2\\x82\"", b"\x04\x00\x02\xE2\x82"),
            ("#0700:ff", b"\x07\x00\x01\xFF"),
            ("#0A00:eda080", b"\x0A\x00\x03\xED\xA0\x80"),
            ("'\\u{D800}'", b"\x06\x00\x04\x00\x00\xD8\x00"),
            ("'\\u{DFFF}'", b"\x06\x00\x04\x00\x00\xDF\xFF"),
            ("'\\u{110000}'", b"\x06\x00\x04\x00\x11\x00\x00"),
            ("'\\u{FFFFFFFF}'", b"\x06\x00\x04\xFF\xFF\xFF\xFF"),
        ]
        for text, field in fields:
            with self.subTest(text):
                data = field + b"\x02\x00\x00"
                self.assertEqual(tokens.to_file(text), data)
                self.assertEqual(tokens.unparse(tokens.read_file(data)), text)

    def test_texts_of_unicode(self):
        written = tokens.to_file("\"\u00b5m \U0001f600\" '\u00e9' '\U0010ffff' #0700:C2B5")
        plain = "\"\\xC2\\xB5m \\xF0\\x9F\\x98\\x80\" '\\u{E9}' '\\u{10FFFF}' #0700:c2b5"
        self.assertEqual(tokens.unparse(tokens.read_file(written)), plain)
        self.assertEqual(tokens.to_file(plain), written)

    def test_names_that_mean_something_else(self):
        for name in [b"if", b"_E", b"_NOEOF", b"1a", b"", b"a b", b"\xe9"]:
            data = struct.pack(">BH", 7, len(name)) + name
            text = tokens.unparse(tokens.read_file(data))
            self.assertTrue(text.startswith("#0700:"), text)
            self.assertEqual(tokens.to_file(text), data)

    def test_what_has_no_field(self):
        for text in ["#0B00", "#0701", "#0201"]:
            with self.subTest(text), self.assertRaises(tokens.Fault):
                tokens.to_file(text)

    def test_broken_files(self):
        broken = [("07", 0), ("0700", 0), ("07000261", 0), ("0700016105", 1), ("0B0000", 0),
                  ("0800020101", 0), ("020001AA", 0), ("03000401020304", 0)]
        for data, number in broken:
            with self.subTest(data), self.assertRaisesRegex(tokens.Fault, "field %d " % number):
                tokens.read_file(bytes.fromhex(data))


class Commands(unittest.TestCase):
    def test_lines_are_arrays(self):
        code, out, _ = run("to-words", "--lines", given=b"a\n\nb ;\n")
        self.assertEqual((code, out), (0, b"0700 0200\n0200\n0700 080B 0200\n"))

    def test_without_lines_there_is_one(self):
        code, out, _ = run("to-words", given=b"a\nb\n")
        self.assertEqual((code, out), (0, b"0700 0700 0200\n"))

    def test_there_and_back(self):
        text = b"if ( a . b ) { \"s\\n\" ; } _E _NOEOF\n"
        code, data, _ = run("to-file", given=text)
        self.assertEqual((code, run("from-file", given=data)), (0, (0, text, b"")))

    def test_what_is_no_unicode(self):
        code, data, _ = run("to-file", "#0700:FF \"\\xFF\" '\\u{D800}'")
        self.assertEqual((code, data), (0, bytes.fromhex("070001FF 040001FF 0600040000D800 020000")))
        self.assertEqual(run("from-file", given=data), (0, b"#0700:ff \"\\xFF\" '\\u{D800}'\n", b""))

    def test_places(self):
        listed = b"0 if\n1 a\n2 ==\n3 'c'\n4 _EOF\n"
        self.assertEqual(run("places", "if a == 'c'"), (0, listed, b""))
        self.assertEqual(run("places", given=b"if a\n == 'c'\n"), (0, listed, b""))
        self.assertEqual(run("places", "_E _NOEOF"), (0, b"0 _E\n", b""))

    def test_a_fault_is_said_in_one_line(self):
        code, out, error = run("to-words", "@")
        self.assertEqual((code, out, error), (1, b"", b"tokens: no token starts at '@'\n"))

    def test_wrong_use(self):
        self.assertNotEqual(run()[0], 0)
        self.assertNotEqual(run("from-file", "x")[0], 0)
        self.assertNotEqual(run("places", "--lines")[0], 0)


if __name__ == "__main__":
    unittest.main()
