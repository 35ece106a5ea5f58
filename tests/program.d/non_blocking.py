"""non_blocking.py STREAM PROGRAM WORD..: runs the program with a pipe as this stream, 0 or 1, that
doesn't wait. Ends with its status."""
import os
import subprocess
import sys

reading, writing = os.pipe()
stream = int(sys.argv[1])
os.set_blocking((reading, writing)[stream], False)
streams = {"stdin": reading} if stream == 0 else {"stdout": writing}
sys.exit(subprocess.run(sys.argv[2:], **streams).returncode)
