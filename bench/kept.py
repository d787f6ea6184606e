"""Writes files of a store, as the server writes them, with as many operations as a measure needs."""
import hashlib
import json

MOST = 200_000  # operations on a pad


def write_pad(folder, name, count, author="ann", replica=1):
    """A pad's file in which its owner typed so many letters."""
    values = [{"format": 1, "pad": name, "replica": replica}, {"at": 1, "kind": "named", "name": name, "owner": author}]
    before = b""
    with open(f"{folder}/{name}.pad", "wb") as file:
        for number in range(-1, count + 1):
            if number > 0:
                after = [number - 1, 1] if number > 1 else None
                op = {"after": after, "author": author, "first": [number, 1], "kind": "insert", "name": [1, number], "seen": [], "text": "x"}
                value = {"at": 2, "kind": "delivered", "op": op}
            else:
                value = values[number + 1]
            text = json.dumps(value, separators=(",", ":"), sort_keys=True).encode()
            before = hashlib.sha256(before + text).hexdigest().encode()
            file.write(b"[" + text + b',"' + before + b'"]\n')
