"""An OCI image with the static program, for x86-64 and arm64, as a tar file that docker, podman and skopeo read. No engine makes it. It also
has ppdb-tools, for images with Python 3.10 or later: `COPY --from=ppdb /usr /usr`."""
from __future__ import annotations

import hashlib
import json
import time
from typing import Any

from common import LICENSE, NAME, SUMMARY, Member, date, source, sources, tar, targets, version

TYPE = "application/vnd.oci.image"
PLATFORMS = {"amd64": "linux-x64-static", "arm64": "linux-arm64-static"}
# No user of the system has this number, and no user is needed.
NOBODY = "65532:65532"


class Blobs:
    """The contents of an image, each under its sum."""

    def __init__(self) -> None:
        self.members: list[Member] = []

    def put(self, data: bytes, kind: str) -> dict[str, Any]:
        digest = hashlib.sha256(data).hexdigest()
        self.members.append(Member(f"blobs/sha256/{digest}", data))
        return {"mediaType": f"{TYPE}.{kind}", "digest": f"sha256:{digest}", "size": len(data)}


def as_json(told: Any) -> bytes:
    return json.dumps(told, separators=(",", ":"), sort_keys=True).encode()


def image(blobs: Blobs, processor: str, folder: str) -> dict[str, Any]:
    """The manifest of the image for one processor."""
    program = Member("usr/bin/ppdb", (targets() / folder / "ppdb").read_bytes(), is_program=True)
    tools = [source("tools/ppdb-tools", "usr/bin/ppdb-tools", is_program=True), *sources("tools/src/ppdb_tools", "usr/share/ppdb/ppdb_tools")]
    files = [program, *tools, source("LICENSE", "usr/share/doc/ppdb/LICENSE"), source("NOTICE", "usr/share/doc/ppdb/NOTICE")]
    layer = blobs.put(tar(files), "layer.v1.tar+gzip")
    told = {
        "architecture": processor, "os": "linux", "created": time.strftime("%Y-%m-%dT00:00:00Z", time.gmtime(date())),
        "config": {"Entrypoint": ["/usr/bin/ppdb"], "WorkingDir": "/work", "User": NOBODY,
                   "Labels": {"org.opencontainers.image.version": version(), "org.opencontainers.image.title": NAME,
                              "org.opencontainers.image.description": SUMMARY, "org.opencontainers.image.licenses": LICENSE}},
        "rootfs": {"type": "layers", "diff_ids": [f"sha256:{hashlib.sha256(tar(files, compressed=False)).hexdigest()}"]},
    }
    manifest = {"schemaVersion": 2, "mediaType": f"{TYPE}.manifest.v1+json", "config": blobs.put(as_json(told), "config.v1+json"), "layers": [layer]}
    return {**blobs.put(as_json(manifest), "manifest.v1+json"), "platform": {"architecture": processor, "os": "linux"}}


def package() -> dict[str, bytes]:
    blobs = Blobs()
    manifests = [image(blobs, processor, folder) for processor, folder in PLATFORMS.items()]
    index = {"schemaVersion": 2, "mediaType": f"{TYPE}.index.v1+json", "manifests": manifests}
    named = {**blobs.put(as_json(index), "index.v1+json"), "annotations": {"org.opencontainers.image.ref.name": version()}}
    top = [Member("oci-layout", as_json({"imageLayoutVersion": "1.0.0"})), Member("index.json", as_json({"schemaVersion": 2, "manifests": [named]}))]
    return {f"{NAME}-{version()}-oci.tar": tar([*top, *blobs.members], compressed=False)}
