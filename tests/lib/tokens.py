"""A token that requests have to bring, in a file and as the field of a request."""

import os
import pathlib
import tempfile

TOKEN = "AZaz09-._~+/=aaa"
WRONG = f"{TOKEN[:-1]}b"


def with_token(values):
    return {"fields": [f"Authorization: {it}" for it in values]}


def token_file(scene, text):
    path = pathlib.Path(tempfile.mkdtemp(prefix="token-", dir=scene.folder)) / "token"
    path.write_bytes(text)
    os.chmod(path, 0o600)
    return path
