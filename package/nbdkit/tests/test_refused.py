"""Images that are refused are not served, and it is said why as the tool says it."""
import json
import os
import re
from concurrent.futures import ThreadPoolExecutor

from served import ROOT, SAMPLES, Case, made, ran, run, told
import served

CHECKS = ROOT / "tests/checks"
BASE = SAMPLES / "tool-base.vmdk"
# The number of vmdk_check's own for an input that is too long for it.
TOO_LONG = "37"


def line(refused: object) -> str:
    """What nbdkit says on standard error, without its own words before it."""
    return refused.stderr.decode().replace("nbdkit: error: ", "").rstrip("\n")


def unhinted(said: str) -> str:
    """A refusal without what helps on, which stands in brackets at its end."""
    return re.sub(r" \(.*\)( \(.*\))?$", "", said)


class Refused(Case):
    def refuses(self, said: str, *layers: object) -> str:
        """One line that begins so, and no server."""
        refused = told(*layers)
        self.assertEqual((refused.returncode, refused.stdout), (1, b""))
        self.assertEqual(line(refused)[:len(said)], said)
        self.assertNotIn("\n", line(refused))
        return line(refused)

    def test_stored(self) -> None:
        """Each stored image is served or refused as document 01 says, in the tool's words"""
        images = sorted(path.with_suffix("") for path in CHECKS.glob("*.line"))
        # Its status is that of the refused ones.
        words = ran(served.TOOL, "check", *images).stdout.decode().splitlines()
        self.assertEqual(len(words), len(images))
        with ThreadPoolExecutor(4) as pool:
            answers = list(pool.map(told, images))
        met = set()
        for image, answer, said in zip(images, answers, words):
            with self.subTest(image.name):
                verdict, number = image.with_suffix(".line").read_text().split()[:2]
                accepted = ": accepted" in said
                self.assertTrue(number == TOO_LONG or accepted == (verdict == "accepted"))
                self.assertEqual((answer.returncode, answer.stdout), (0, b"served\n") if accepted else (1, b""))
                if not accepted:
                    # The hints of 8 name commands, which a server has not.
                    shown = unhinted if ": refused 8:" in said else str
                    self.assertEqual(shown(line(answer)), shown(said))
                    self.assertTrue(number == TOO_LONG or f": refused {number}" in line(answer))
                    met.add(number)
        self.assertGreaterEqual(met, {str(number) for number in range(1, 13)} | {"43"})

    def test_which_layer(self) -> None:
        """Of a chain the refused layer is named"""
        cut = self.copy("tool-middle.vmdk")
        cut.write_bytes(cut.read_bytes()[:-512])
        self.refuses(f"{cut}: refused 9 at grain 1: the grain runs past the end of the file", BASE, cut)

    def test_cowd(self) -> None:
        """A COWD image is refused 43, and `anhkhovet move` is named"""
        image = SAMPLES / "cowd-s001.vmdk"
        for layers in [image], [BASE, image]:
            said = self.refuses(f"{image}: refused 43: it is a COWD image", *layers)
            self.assertIn("`anhkhovet move FILE -o OUT` writes it as KDMV", said)

    def test_unlike(self) -> None:
        """Layers of different capacity are refused 22, without a file"""
        other = made(self.folder / "other.vmdk", "2M")
        self.refuses("refused 22: the images do not have the same capacity and grain size", BASE, other)

    def test_too_many(self) -> None:
        """Seventeen layers are refused 24"""
        self.refuses("refused 24: a chain has 1 to 16 layers", *[BASE] * 17)
        self.assertEqual(told(*[BASE] * 16).returncode, 0)

    def test_descriptor(self) -> None:
        """A descriptor is refused 2: single images are served"""
        image = SAMPLES / "two-gb-sparse.vmdk"
        self.refuses(f"{image}: refused 2: the file begins with neither KDMV nor COWD", image)

    def test_half_a_marker(self) -> None:
        """A marker that the last bytes of the file hold in part is read whole"""
        disk, image = self.folder / "disk", self.folder / "packed.vmdk"
        disk.write_bytes(b"x" * 65536)
        run("qemu-img", "convert", "-f", "raw", "-O", "vmdk", "-o", "subformat=streamOptimized", disk, image)
        marker = 512 * json.loads(run(served.TOOL, "sector", "--json", image, 0).stdout)["file_sector"]
        # 1,536 bytes before the end are four bytes into the marker, of which the first names the grain's sector.
        os.truncate(image, marker + 4 + 1536)
        self.assertEqual(told(image).stdout, b"served\n")
        with image.open("r+b") as file:
            file.seek(marker)
            file.write(b"\1")
        self.refuses(f"{image}: refused 10 at grain 0", image)

    def test_two_tables_outside(self) -> None:
        """A primary table outside the file is named before a redundant one that the file's last bytes name"""
        image = self.copy("tool-base.vmdk")
        data = bytearray(image.read_bytes())
        outside = bytes([255, 255, 255, 127])
        data[48:56] = (len(data) // 512).to_bytes(8, "little")
        data += outside + bytes(508)
        image.write_bytes(data)
        self.refuses(f"{image}: refused 8: a redundant table does not lie inside the file", image)
        directory = 512 * int.from_bytes(data[56:64], "little")
        data[directory:directory + 4] = outside
        image.write_bytes(data)
        self.refuses(f"{image}: refused 8: a primary table does not lie inside the file", image)

    def test_still_open(self) -> None:
        """A disk that was still open is served, and that is said"""
        image = self.copy("tool-base.vmdk")
        with image.open("r+b") as file:
            file.seek(72)
            file.write(b"\1")
        answer = told(image)
        self.assertEqual((answer.returncode, answer.stdout), (0, b"served\n"))
        self.assertIn(f"{image}: the disk was still open when it was copied", answer.stderr.decode())
