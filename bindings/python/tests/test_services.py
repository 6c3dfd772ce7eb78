"""The messages of the made-up services and of the examples, sound and damaged."""

from __future__ import annotations

import unittest
from typing import Any, Dict

from tarnoklej import MESSAGES, read, read_message

from .asked import asked
from .places import EXAMPLES, SERVICES, message_files, second_lines

GRS80, BESSEL, INTERNATIONAL, KRASSOWSKY = (
    (8_137_000, 6_752_314),
    (7_397_155, 6_078_963),
    (8_388_000, 6_911_946),
    (8_245_000, 6_863_019),
)
DAY = 54_241
NONE = (None,) * 16
HELMERT, BADEKAS, HEIGHTS, OBLIQUE, ANTIMERIDIAN = (
    "a-helmert-gauss-krueger",
    "b-molodenski-badekas-lambert",
    "c-heights-only",
    "d-oblique-mercator",
    "e-across-the-antimeridian",
)


def angle(degrees: int, ten_millionths: int = 0) -> int:
    """An angle in steps of 0.000000011 degree, the nearest one."""
    magnitude = abs(degrees) * 10**7 + ten_millionths
    return (1 if degrees >= 0 else -1) * ((magnitude * 1_000 + 55) // 110)


# What the second program puts into each message, by attribute; all else is 0 (second/src/services.rs).
EXPECTED: Dict[str, Dict[str, Any]] = {
    f"{HELMERT}/1021": {
        "source_name": "4936", "target_name": "4314", "sin": 11, "utilized_messages": 0b1010000000, "plate_number": 7,
        "computation_indicator": 0, "height_indicator": 1, "validity_latitude": 88_200, "validity_longitude": 19_800,
        "validity_north_south": 1_800, "validity_east_west": 1_800, "translation_x": -598_100,
        "translation_y": -73_700, "translation_z": -418_200, "rotation_x": 10_100, "rotation_y": 2_250,
        "rotation_z": -122_750, "scale_correction": -670_000, "source_semi_major": GRS80[0],
        "source_semi_minor": GRS80[1], "target_semi_major": BESSEL[0], "target_semi_minor": BESSEL[1],
        "horizontal_quality": 4, "vertical_quality": 3,
    },
    f"{HELMERT}/1023": {
        "sin": 11, "horizontal_shift": 1, "vertical_shift": 1, "origin_latitude": 352_807, "origin_longitude": 79_209,
        "spacing_north_south": 720, "spacing_east_west": 720, "mean_latitude": 12, "mean_longitude": -7,
        "mean_height": 4_692, "horizontal_quality": 2, "vertical_quality": 3, "modified_julian_day": DAY,
        "latitude_residuals": (20, 17, 11, 4, 15, 9, 3, -2, 8, 1, -6, -13, 0, -7, -15, -24),
        "longitude_residuals": (13, 10, 12, 9, 4, 0, -1, -3, -6, -8, -7, -11, -15, -14, -18, -20),
        "height_residuals": (0, 31, 58, 90, -12, 20, 44, 79, -27, 3, 29, 61, -44, -15, 12, 40),
    },
    f"{HELMERT}/1025": {
        "sin": 11, "projection_type": 1, "origin_longitude": angle(12), "scale_factor": 700_000_000,
        "false_easting": 4_500_000_000,
    },
    f"{BADEKAS}/1022": {
        "source_name": "4247", "target_name": "4189", "sin": 22, "utilized_messages": 0b0101000000, "plate_number": 12,
        "computation_indicator": 3, "validity_latitude": 14_400, "validity_longitude": -118_800,
        "validity_north_south": 3_600, "validity_east_west": 3_600, "translation_x": -270_933,
        "translation_y": 115_599, "translation_z": -360_226, "rotation_x": -263_300, "rotation_y": -61_900,
        "rotation_z": 119_050, "scale_correction": -510_900, "rotation_point_x": 2_464_351_590,
        "rotation_point_y": -5_783_466_610, "rotation_point_z": 974_809_810, "source_semi_major": INTERNATIONAL[0],
        "source_semi_minor": INTERNATIONAL[1], "target_semi_major": GRS80[0], "target_semi_minor": GRS80[1],
        "horizontal_quality": 5, "vertical_quality": 5,
    },
    f"{BADEKAS}/1024": {
        "sin": 22, "horizontal_shift": 1, "vertical_shift": 1, "origin_northing": 100_000, "origin_easting": 100_000,
        "spacing_north_south": 1_000, "spacing_east_west": 1_200, "mean_northing": -34, "mean_easting": 112,
        "mean_height": -1_875, "horizontal_quality": 4, "modified_julian_day": DAY,
        "northing_residuals": (52, 31, 9, -14, 44, 26, 3, -20, 39, 18, -5, -29, 30, 11, -12, -37),
        "easting_residuals": (-60, -41, -22, 0, -48, -30, -11, 10, -35, -19, 1, 22, -25, -8, 13, 33),
        "height_residuals": (-120, -80, -41, 2, -101, -60, -19, 21, -79, -40, 0, 42, -58, -21, 20, 63),
    },
    f"{BADEKAS}/1026": {
        "sin": 22, "projection_type": 4, "origin_latitude": angle(8), "origin_longitude": angle(-66),
        "standard_parallel_1": angle(3), "standard_parallel_2": angle(9), "origin_easting": 1_000_000_000,
        "origin_northing": 1_000_000_000,
    },
    f"{HEIGHTS}/1021": {
        "source_name": "4936", "target_name": "ETRS89 / UTM 33N + NN", "sin": 33, "utilized_messages": 0b1010000000,
        "plate_number": 7, "height_indicator": 2, "validity_latitude": 94_500, "validity_longitude": 24_300,
        "validity_north_south": 900, "validity_east_west": 900, "source_semi_major": GRS80[0],
        "source_semi_minor": GRS80[1], "target_semi_major": GRS80[0], "target_semi_minor": GRS80[1],
        "horizontal_quality": 1, "vertical_quality": 2,
    },
    f"{HEIGHTS}/1023": {
        "sin": 33, "vertical_shift": 1, "origin_latitude": 378_000, "origin_longitude": 97_200,
        "spacing_north_south": 360, "spacing_east_west": 600, "mean_latitude": None, "mean_longitude": None,
        "mean_height": 3_987, "latitude_residuals": NONE, "longitude_residuals": NONE, "vertical_quality": 1,
        "height_residuals": (212, 180, 151, 118, 133, 101, 70, 41, 48, 19, -9, -40, -37, -66, -93, -125),
        "modified_julian_day": DAY,
    },
    f"{HEIGHTS}/1025": {
        "sin": 33, "projection_type": 1, "origin_longitude": angle(15), "scale_factor": 660_000_000,
        "false_easting": 500_000_000,
    },
    f"{OBLIQUE}/1021": {
        "source_name": "4978", "target_name": "4149", "sin": 44, "utilized_messages": 0b0100100000, "plate_number": 7,
        "computation_indicator": 2, "height_indicator": 1, "validity_latitude": 84_600, "validity_longitude": 14_400,
        "validity_north_south": 3_600, "validity_east_west": 5_400, "translation_x": -674_374,
        "translation_y": -15_056, "translation_z": -405_346, "source_semi_major": GRS80[0],
        "source_semi_minor": GRS80[1], "target_semi_major": BESSEL[0], "target_semi_minor": BESSEL[1],
        "horizontal_quality": 5, "vertical_quality": 4,
    },
    f"{OBLIQUE}/1024": {
        "sin": 44, "horizontal_shift": 1, "vertical_shift": 1, "origin_northing": 20_000, "origin_easting": 60_000,
        "spacing_north_south": 500, "spacing_east_west": 500, "mean_northing": 21, "mean_easting": -43,
        "mean_height": 128, "horizontal_quality": 5, "vertical_quality": 4, "modified_julian_day": DAY,
        "northing_residuals": (None, 88, 61, 30, None, 70, 44, 12, 97, 52, 25, -6, 80, 36, 8, -23),
        "easting_residuals": (None, -30, -12, 9, None, -44, -25, -5, -78, -57, -39, -20, -90, -71, -52, -34),
        "height_residuals": (None, 14, 55, 101, None, -8, 30, 77, -72, -33, 9, 52, -98, -55, -14, 29),
    },
    f"{OBLIQUE}/1027": {
        "sin": 44, "projection_type": 7, "rectification": 1, "center_latitude": angle(46, 9_524_056),
        "center_longitude": angle(7, 4_395_833), "azimuth": angle(90), "scale_factor": 700_000_000,
        "center_easting": 600_000_000, "center_northing": 200_000_000,
    },
    f"{ANTIMERIDIAN}/1021": {
        "source_name": "4936", "target_name": "4284", "sin": 55, "utilized_messages": 0b1010000000, "plate_number": 9,
        "height_indicator": 1, "validity_latitude": 128_250, "validity_longitude": 323_910,
        "validity_north_south": 1_800, "validity_east_west": 3_600, "translation_x": -25_110,
        "translation_y": 141_260, "translation_z": 78_600, "rotation_x": 2_150, "rotation_y": -17_300,
        "rotation_z": -40_950, "scale_correction": -25_000, "source_semi_major": GRS80[0],
        "source_semi_minor": GRS80[1], "target_semi_major": KRASSOWSKY[0], "target_semi_minor": KRASSOWSKY[1],
        "horizontal_quality": 4, "vertical_quality": 4,
    },
    f"{ANTIMERIDIAN}/1023": {
        "sin": 55, "horizontal_shift": 1, "vertical_shift": 1, "origin_latitude": 513_000,
        "origin_longitude": 1_295_640, "spacing_north_south": 720, "spacing_east_west": 1_440, "mean_latitude": -9,
        "mean_longitude": 23, "mean_height": 318, "horizontal_quality": 3, "vertical_quality": 3,
        "modified_julian_day": DAY,
        "latitude_residuals": (-31, -22, -14, -3, -24, -17, -6, 4, -15, -8, 2, 13, -9, 1, 10, 19),
        "longitude_residuals": (44, 37, 25, 16, 39, 30, 21, 9, 33, 22, 13, 3, 24, 15, 6, -5),
        "height_residuals": (120, 88, 51, 23, 97, 60, 28, -9, 66, 35, -2, -40, 41, 7, -31, -64),
    },
    f"{ANTIMERIDIAN}/1025": {
        "sin": 55, "projection_type": 1, "origin_longitude": angle(177), "scale_factor": 700_000_000,
        "false_easting": 30_500_000_000,
    },
}


class Sound(unittest.TestCase):
    def test_the_sound_messages_are_listed(self) -> None:
        names = {f"{path.parent.name}/{path.stem}" for path in SERVICES.glob("*/????.rtcm")}
        self.assertEqual(names, set(EXPECTED))

    def test_every_field(self) -> None:
        for name, values in EXPECTED.items():
            data = (SERVICES / f"{name}.rtcm").read_bytes()
            expected = MESSAGES[int(name[-4:])](**values)
            self.assertEqual(read_message(data), expected, name)
            self.assertEqual(expected.to_bytes(), data, name)

    def test_there_and_back_in_units(self) -> None:
        for name in EXPECTED:
            message = read_message((SERVICES / f"{name}.rtcm").read_bytes())
            names = {attribute for attribute, field in message.fields().items() if field.type == "char8"}
            values = {
                attribute: getattr(message, attribute) if attribute in names else message.scaled(attribute)
                for attribute in message.fields()
            }
            self.assertEqual(type(message).from_scaled(**values), message, name)

    def test_described(self) -> None:
        lines = read_message((SERVICES / HEIGHTS / "1023.rtcm").read_bytes()).describe().splitlines()
        self.assertEqual(lines[0], "DF002  Message Number: 1023")
        self.assertIn("DF192  Latitude of Origin of Grids: 189000.0 arc second", lines)
        self.assertIn("DF196  Mean Latitude Offset: not available", lines)
        self.assertIn("DF198  Mean Height Offset: 39.87 m", lines)
        self.assertTrue(any(line.startswith("DF201  Height Residual: 0.212, 0.180, ") for line in lines))
        name = read_message((SERVICES / HEIGHTS / "1021.rtcm").read_bytes()).describe()
        self.assertIn("DF146  Target-Name: 'ETRS89 / UTM 33N + NN'", name)


class AnyFile(unittest.TestCase):
    def test_each_file_is_read_or_refused_as_the_second_program_says(self) -> None:
        refusals = set()
        for path in message_files():
            data = path.read_bytes()[:128]
            refusal, header = asked(read, data)
            line = f"refused {refusal}" if header is None else f"{header.number} {header.length} {header.sin}"
            self.assertEqual([line], second_lines("identify", given=data), path.name)
            self.assertEqual(asked(read_message, data)[0], refusal, path.name)
            refusals.add(refusal)
        self.assertTrue({0, 1, 2, 3, 4, 5} <= refusals, refusals)

    def test_examples_are_written_as_they_were_read(self) -> None:
        for path in EXAMPLES.glob("*.rtcm"):
            self.assertEqual(read_message(path.read_bytes()).to_bytes(), path.read_bytes(), path.name)
