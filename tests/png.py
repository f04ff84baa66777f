"""The pixels of a screenshot: PNG with 8 bits a colour, read by python3's library alone."""
import struct
import zlib


def paeth(left, up, corner):
    guess = left + up - corner
    return min((abs(guess - left), 0, left), (abs(guess - up), 1, up), (abs(guess - corner), 2, corner))[2]


class Picture:
    def __init__(self, content):
        assert content.startswith(b"\x89PNG\r\n\x1a\n"), "no PNG"
        at, data = 8, b""
        while at < len(content):
            length, kind = struct.unpack_from(">I4s", content, at)
            part = content[at + 8 : at + 8 + length]
            if kind == b"IHDR":
                self.width, self.height, depth, colours, _, _, interlaced = struct.unpack(">IIBBBBB", part)
                assert depth == 8 and colours in (2, 6) and not interlaced, "another sort of PNG"
                self.bytes = 3 if colours == 2 else 4
            elif kind == b"IDAT":
                data += part
            at += 12 + length
        self.rows = self.unfiltered(zlib.decompress(data))

    def unfiltered(self, data):
        """Each row by the one above it: the five filters of PNG."""
        size, rows, above = self.width * self.bytes, [], bytes(self.width * self.bytes)
        for start in range(0, len(data), size + 1):
            kind, row = data[start], bytearray(data[start + 1 : start + 1 + size])
            for i in range(size) if kind else ():
                left, corner = (row[i - self.bytes], above[i - self.bytes]) if i >= self.bytes else (0, 0)
                row[i] = (row[i] + (0, left, above[i], (left + above[i]) // 2, paeth(left, above[i], corner))[kind]) % 256
            rows.append(row)
            above = row
        return rows

    def at(self, x, y):
        """Red, green and blue of the pixel at a place."""
        start = int(x) * self.bytes
        return tuple(self.rows[int(y)][start : start + 3])
