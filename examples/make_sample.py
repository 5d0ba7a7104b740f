#!/usr/bin/env python3
"""Writes sample.ts: 100 transport packets of 188 bytes, as a small file to try the commands on.

Each packet has the sync byte 0x47, the packet identifier 0x100, a continuity counter, and a
payload that counts on, so that a shifted or lost byte shows at once.
"""
import pathlib

packets = bytearray()
for number in range(100):
    header = bytes([0x47, 0x41 if number == 0 else 0x01, 0x00, 0x10 | number % 16])
    payload = bytes((number * 7 + place) % 256 for place in range(184))
    packets += header + payload
target = pathlib.Path(__file__).with_name("sample.ts")
target.write_bytes(packets)
print(f"{target}: {len(packets)} bytes, {len(packets) // 188} packets")
