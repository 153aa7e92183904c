"""Where the checks put the repositories that they make and have checked.

Outside the checkout: `rt ci` refuses a source that stands in no crate of crates.txt. The folder that JEHVRUKAM_SCRATCH
names, or else one among the temporary files for each checkout. It stays: what rt kept there spares the next run work.
"""
import hashlib
import os
import pathlib
import tempfile

from tally import ROOT


def scratch(name):
    """The folder of this name; it is made if it is not there."""
    given = os.environ.get('JEHVRUKAM_SCRATCH')
    if given:
        top = pathlib.Path(given)
    else:
        own = pathlib.Path(tempfile.gettempdir()) / ('jehvrukam-%d' % os.getuid())
        own.mkdir(mode=0o700, exist_ok=True)
        if own.is_symlink() or own.stat().st_uid != os.getuid():
            raise SystemExit('%s is somebody else\'s: name another folder in JEHVRUKAM_SCRATCH' % own)
        top = own / hashlib.sha256(str(ROOT).encode()).hexdigest()[:12]
    folder = (top / name).resolve()
    if ROOT in folder.parents:
        raise SystemExit('JEHVRUKAM_SCRATCH names a folder of the checkout, where rt ci would refuse what is made')
    folder.mkdir(parents=True, exist_ok=True)
    return folder
