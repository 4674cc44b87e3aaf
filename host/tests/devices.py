"""The devices of scripts, ported to Python: a store of 32 blocks of 64 bytes, a console with a line of 126 bytes, and one that rejects
every command. docs/REFERENCE.md says what each does."""

from __future__ import annotations

from typing import Tuple

from filuvamoth import CHANNEL_END, DEVICE_END, STATUS_MODIFIER, UNIT_CHECK, Device

END = CHANNEL_END | DEVICE_END
REJECTED, NO_SUCH_BLOCK = 0x80, 0x20


class Block(Device):
    def __init__(self) -> None:
        self.restart()

    def restart(self) -> None:
        self.blocks = [bytearray(64) for _ in range(32)]
        self.current = self.moved = self.sense = self.command = 0
        self.number = bytearray(2)

    def initial(self, code: int, side: int, path: int) -> int:
        self.moved = 0
        self.command = code if code in (0x01, 0x02, 0x03, 0x04, 0x07, 0x0B, 0x31) else 0
        if not self.command:
            self.sense = REJECTED
            return UNIT_CHECK
        if code == 0x0B:
            self.current = 0
        return CHANNEL_END if code in (0x03, 0x0B) else 0

    def supply(self, most: int) -> bytes:
        if self.command == 0x02:
            part = bytes(self.blocks[self.current][self.moved : self.moved + most])
        elif self.command == 0x04 and not self.moved and most:
            part = bytes([self.sense])
            self.sense = 0
        else:
            part = b""
        self.moved += len(part)
        return part

    def absorb(self, data: bytes) -> int:
        room = {0x01: 64, 0x07: 2, 0x31: 2}.get(self.command, 0)
        part = data[: max(0, room - self.moved)]
        target = self.blocks[self.current] if self.command == 0x01 else self.number
        target[self.moved : self.moved + len(part)] = part
        self.moved += len(part)
        return len(part)

    def finish(self) -> Tuple[int, bool]:
        number = int.from_bytes(self.number, "big")
        status, more = END, False
        if self.command == 0x02:
            more = self.moved < 64
        elif self.command in (0x03, 0x0B):
            status = DEVICE_END
        elif self.command == 0x07 and self.moved == 2 and number < 32:
            self.current = number
        elif self.command == 0x07:
            self.sense = NO_SUCH_BLOCK
            status |= UNIT_CHECK
        elif self.command == 0x31 and self.moved == 2 and number == self.current:
            status |= STATUS_MODIFIER
        self.command = self.moved = 0
        return status, more


class Console(Device):
    def __init__(self) -> None:
        self.restart()

    def restart(self) -> None:
        self.line = b""
        self.given = self.sense = self.command = 0

    def initial(self, code: int, side: int, path: int) -> int:
        self.given = 0
        self.command = code if code in (0x01, 0x03, 0x04, 0x0A) else 0
        if not self.command:
            self.sense = REJECTED
            return UNIT_CHECK
        if code == 0x01:
            self.line = b""
        return CHANNEL_END if code == 0x03 else 0

    def supply(self, most: int) -> bytes:
        if self.command == 0x0A:
            part = self.line[self.given : self.given + most]
        elif self.command == 0x04 and not self.given and most:
            part = bytes([self.sense])
            self.sense = 0
        else:
            part = b""
        self.given += len(part)
        return part

    def absorb(self, data: bytes) -> int:
        part = data[: 126 - len(self.line)] if self.command == 0x01 else b""
        self.line += part
        return len(part)

    def finish(self) -> Tuple[int, bool]:
        command, more = self.command, self.command == 0x0A and self.given < len(self.line)
        self.command = self.given = 0
        return DEVICE_END if command == 0x03 else END, more


class Reject(Device):
    def initial(self, code: int, side: int, path: int) -> int:
        return UNIT_CHECK


KINDS = {b"block": Block, b"console": Console, b"reject": Reject}
