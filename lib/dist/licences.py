"""The list of the contents of a release, in the format SPDX 2.3: files with their sums, and parts
with versions and licences."""
from __future__ import annotations

import json
import os
import pathlib
import re
import time
import uuid
from collections.abc import Mapping
from typing import Any, NamedTuple

from aigprove.release import Release
from dist import NAME, SUMMARY
from dist.files import File, Tree, sum_of, sums_of

LICENCE = "MIT"
# The namespace in which the sums of releases are names.
SPACE = uuid.uuid5(uuid.NAMESPACE_OID, NAME)


class Part(NamedTuple):
    """A part that is linked into the programs: its licence, the file of the kit that states the
    licence, and a description."""

    name: str
    version: str
    licence: str
    stated: str
    about: str


def parts() -> list[Part]:
    """Returns the parts that are linked into the programs in addition to this repository's code."""
    text = (pathlib.Path(__file__).parent / "linked.tsv").read_text(encoding="utf-8")
    return [Part(*line.split("\t")) for line in text.splitlines() if not line.startswith("#")]


def tools() -> pathlib.Path | None:
    """Returns the folder of the kit whose `rt` is found, if there is one."""
    for folder in os.get_exec_path():
        if os.access(rt := os.path.join(folder, "rt"), os.X_OK):
            return pathlib.Path(rt).resolve().parent.parent
    return None


def notices() -> Tree:
    """Returns the licences that the kit states for the parts that are linked in."""
    kit = tools()
    return {f"licences/{part.name}": File((kit / part.stated).read_bytes())
            for part in parts() if kit and part.stated != "-"}


def holder(top: pathlib.Path) -> str:
    """Returns the holders of the copyright, who are named last in LICENSE."""
    named = re.findall(r"Copyright \(c\) \d+ (.*)", (top / "LICENSE").read_text(encoding="utf-8"))
    return str(named[-1])


def identifier(name: str) -> str:
    """Returns the identifier of a part or file in the list."""
    return "SPDXRef-" + re.sub(r"[^A-Za-z0-9.-]", "-", name)


def package(name: str, version: str, licence: str, **more: Any) -> dict[str, Any]:
    """Returns the entry of the list for a package."""
    return {"SPDXID": identifier(name), "name": name, "versionInfo": version,
            "downloadLocation": "NOASSERTION", "filesAnalyzed": False,
            "licenseConcluded": licence, "licenseDeclared": licence,
            "copyrightText": "NOASSERTION", **more}


def file_rows(sums: Mapping[str, str]) -> list[dict[str, Any]]:
    """Returns the entries of the list for the files."""
    return [{"SPDXID": identifier(f"file-{number}"), "fileName": f"./{path}",
             "checksums": [{"algorithm": "SHA256", "checksumValue": value}],
             "licenseConcluded": "NOASSERTION", "copyrightText": "NOASSERTION"}
            for number, (path, value) in enumerate(sums.items())]


def contents(tree: Tree, known: Release, seconds: int) -> File:
    """Returns the list of the contents of a tree, with the given time of creation."""
    sums, linked = sums_of(tree), parts()
    own = package(NAME, known.version, LICENCE, summary=SUMMARY,
                  comment=f"Built from the tree {known.tree} of crates/ by {known.kit}.")
    rows = file_rows(sums)
    related = [(NAME, "CONTAINS", row["SPDXID"]) for row in rows]
    related += [(NAME, "STATIC_LINK", identifier(part.name)) for part in linked]
    stamp = sum_of(json.dumps([sums, known]).encode())
    made = {
        "spdxVersion": "SPDX-2.3", "dataLicense": "CC0-1.0", "SPDXID": "SPDXRef-DOCUMENT",
        "name": f"{NAME}-{known.version}",
        "documentNamespace": f"urn:uuid:{uuid.uuid5(SPACE, stamp)}",
        "creationInfo": {"creators": [f"Tool: {NAME}-dist-{known.version}"],
                         "created": time.strftime("%Y-%m-%dT%H:%M:%SZ", time.gmtime(seconds))},
        "documentDescribes": [identifier(NAME)],
        "packages": [own, *(package(part.name, part.version, part.licence, comment=part.about)
                            for part in linked)],
        "files": rows,
        "relationships": [{"spdxElementId": identifier(one), "relationshipType": kind,
                           "relatedSpdxElement": other} for one, kind, other in related]}
    return File((json.dumps(made, indent=1) + "\n").encode())
