"""Fields, amounts and clock times."""
import unittest
from decimal import Decimal
from fractions import Fraction

from ltm_tools import formats
from ltm_tools.errors import Fault


class Fields(unittest.TestCase):
    def test_whole_numbers(self) -> None:
        self.assertEqual([formats.whole_of(text) for text in ("0", "007", "4294967295")], [0, 7, 4294967295])
        for text in ("", "4294967296", "00000000007", "+7", "7.0", " 7", "0x10", "1_000", "\u0667"):
            self.assertIsNone(formats.whole_of(text), text)

    def test_vehicles(self) -> None:
        known = {
            "7": 7000,
            "7.2": 7200,
            "7.225": 7225,
            "0.05": 50,
            "00000000000000000001": 1000,
            "1000000": 1_000_000_000,
        }
        self.assertEqual({text: formats.units_of(text) for text in known}, known)
        for text in ("", ".5", "7.", "7.2250", "1000000.001", "-1", "1e3", "1,5", "99999999999999999999"):
            with self.assertRaises(Fault, msg=text):
                formats.units_of(text)

    def test_vehicles_as_text(self) -> None:
        self.assertEqual(
            [formats.vehicles_text(units) for units in (0, 50, 1250, -1250)], ["0.000", "0.050", "1.250", "-1.250"]
        )
        self.assertEqual(
            [formats.short_vehicles(units) for units in (0, 50, 1250, 7000, 10_000)], ["0", "0.05", "1.25", "7", "10"]
        )

    def test_numbers_that_the_program_prints(self) -> None:
        self.assertEqual(
            [formats.told_units(text) for text in ("0.000", "0.001", "39998800.000")], [0, 1, 39_998_800_000]
        )
        self.assertEqual(
            [formats.told_time(text) for text in ("0.000001", "64.900000", "23886590999982.360000")],
            [1, 64_900_000, 23_886_590_999_982_360_000],
        )
        for told, texts in (
            (formats.told_units, ("7", "7.2", "7.2250", "-1.000", ".000", "1.000 ", "\u0667.000", "")),
            (formats.told_time, ("7", "1.000", "1.0000000", "+1.000000")),
        ):
            for text in texts:
                self.assertRaises(Fault, told, text)

    def test_exact_vehicles(self) -> None:
        self.assertEqual(
            [formats.exact_units(amount) for amount in (7, "1.25", Decimal("1.25"), Fraction(5, 4))],
            [7000, 1250, 1250, 1250],
        )
        with self.assertRaises(Fault):
            formats.exact_units(Fraction(1, 3))

    def test_names(self) -> None:
        for text in ("a", "-12", "A_b-9", "x" * 32):
            self.assertTrue(formats.is_name(text), text)
        for text in ("", "x" * 33, "a b", "a.b", "\u00e4", "a\n"):
            self.assertFalse(formats.is_name(text), text)

    def test_weights(self) -> None:
        self.assertEqual(formats.weights_or_none("a=1 b=03"), {"a": 1, "b": 3})
        self.assertEqual(formats.weights_or_none("a=1 b=0 c=0 d=4"), {"a": 1, "b": 0, "c": 0, "d": 4})
        for text in ("", "a", "a=", "=1", "a=1  b=1", "a=1 a=2", "a=1 b=1 c=1 d=1 e=1", "a=1 ", "a=b=1"):
            self.assertIsNone(formats.weights_or_none(text), text)


class Clock(unittest.TestCase):
    def test_of_text(self) -> None:
        known = {"0:00": 0, "7:45": 27_900_000, "07:45:30": 27_930_000, "07:45:30.5": 27_930_500, "26:00": 93_600_000}
        self.assertEqual({text: formats.clock_ms(text) for text in known}, known)
        for text in ("7", "7:5", "7:60", "7:45:60", "-1:00", ""):
            with self.assertRaises(Fault, msg=text):
                formats.clock_ms(text)

    def test_as_text(self) -> None:
        known = {
            0: "0:00",
            27_900_000: "7:45",
            27_930_000: "7:45:30",
            27_930_500: "7:45:30.5",
            93_600_000: "26:00",
            7: "0:00:00.007",
        }
        self.assertEqual({ms: formats.clock_text(ms) for ms in known}, known)


if __name__ == "__main__":
    unittest.main()
