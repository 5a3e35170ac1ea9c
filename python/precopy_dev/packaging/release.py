"""A release: all that users get of a version, what it changed, one list of checksums, and a tag."""

import hashlib
import os
import re
import subprocess

from precopy_dev import js_package
from precopy_dev.files import read_bytes, write_file
from precopy_dev.packaging import archive, contents, debian, notices
from precopy_dev.tree import TOP
from precopy_tools.version import VERSION

TAG = f"v{VERSION}"
NODE = f"precopy-planner-{VERSION}.tgz"


class NotClean(Exception):
    """No release can be made of this tree; the text says why."""


def git(*words):
    return subprocess.run(["git", *words], cwd=TOP, capture_output=True, text=True)


def tag():
    """Names the commit after the version. It must be all that the tree has, and no other commit have the name."""
    if changed := git("status", "--porcelain").stdout:
        raise NotClean(f"the tree has changes that are not committed:\n{changed}")
    named = git("rev-parse", "--verify", "--quiet", f"{TAG}^{{commit}}").stdout
    if not named:
        named = git("rev-parse", "HEAD").stdout
        if (made := git("tag", "--annotate", "--message", f"precopy {VERSION}", TAG)).returncode:
            raise NotClean(f"the tag {TAG} cannot be made: {made.stderr}")
    if named != git("rev-parse", "HEAD").stdout:
        raise NotClean(f"the tag {TAG} is of another commit: a release needs a new version in version.py")


def changes():
    """What CHANGELOG.md says of this version."""
    parts = re.split(r"^## (\S+), \S+$", contents.read("CHANGELOG.md").decode(), flags=re.M)
    return dict(zip(parts[1::2], parts[2::2]))[VERSION].strip() + "\n"


def node_package():
    """The package for Node as npm packs one: a tarball of the folder `package`."""
    files = js_package.package_of(contents.module())
    return archive.tarball("package", [contents.Entry(path, data) for path, data in files.items()])


def build(folder, maintainer):
    """Writes the files of the release into a folder, and returns their paths. The same tree gives the same bytes."""
    tag()
    paths = [*debian.build_all(folder, maintainer), *archive.build(folder)]
    texts = {
        contents.PAGE: contents.joined_page(),
        NODE: node_package(),
        "NOTICES": notices.notices().encode(),
        "CHANGES.md": changes().encode(),
    }
    for name, data in texts.items():
        paths.append(os.path.join(folder, name))
        write_file(data, paths[-1])
    sums = os.path.join(folder, "SHA256SUMS")
    with open(sums, "w", encoding="utf-8") as file:
        for path in sorted(paths):
            print(f"{hashlib.sha256(read_bytes(path)).hexdigest()}  {os.path.basename(path)}", file=file)
    return [*paths, sums]
