#!/usr/bin/env python3
"""Run once after the kit's port.py, at the top: port.py's last script passes over a folder that is called target, as our
crate is, so it is given that folder by itself. KIT is the folder of the kit."""
import os
import shutil
import subprocess
import sys
import tempfile

KIT = os.path.dirname(os.path.dirname(os.path.realpath(shutil.which("rt"))))
if not os.path.isdir(os.path.join(KIT, "port")):
    KIT = "/opt/rattle"
with tempfile.TemporaryDirectory(prefix="port-") as top:
    to = os.path.join(top, "rattle")
    shutil.copytree(os.path.join(KIT, "rattle"), to, symlinks=True)
    os.makedirs(os.path.join(to, "docs"), exist_ok=True)
    shutil.copytree(os.path.join(KIT, "port", "notes"), os.path.join(to, "docs", "notes"), dirs_exist_ok=True)
    script = os.path.join(to, "docs", "notes", "2026-11-16-one-script-upgrades-the-surface", "upgrade.py")
    sys.exit(0 if subprocess.run([sys.executable, script, "--rattle", os.path.join(KIT, "bin", "rattle"), os.path.abspath("crates/target")]).returncode in (0, 1) else 1)
