"""A program that stands in for `toll`: what that answers to the plant goes through `sed`, by a process and by a server."""
import pathlib

PROGRAM = '''#!/usr/bin/python3 -IB
import os, shutil, socket, subprocess, sys

TOLL, LIE = {toll!r}, {lie!r}


def changed(text):
    return subprocess.run(["sed", LIE], input=text, capture_output=True, check=True).stdout


def frame(peer):
    size = int.from_bytes(peer.recv(4, socket.MSG_WAITALL))
    return peer.recv(size, socket.MSG_WAITALL) if size else b""


def give(peer, content):
    peer.sendall(len(content).to_bytes(4) + content)


def serve(file):
    true_file = f"{{file}}.true"  # a server watches its own socket
    shutil.copyfile(file, true_file)
    words = [true_file if word == file else word for word in sys.argv[1:]]
    server = subprocess.Popen(["setpriv", "--pdeathsig", "KILL", TOLL, *words], stdout=subprocess.PIPE)
    line = server.stdout.readline()
    with socket.socket(socket.AF_UNIX) as listener:
        listener.bind(f"{{file}}.sock")
        listener.listen()
        os.write(1, line)
        while True:
            peer, _ = listener.accept()
            with peer, socket.socket(socket.AF_UNIX) as true:
                true.connect(f"{{true_file}}.sock")
                give(peer, frame(true))  # the greeting
                give(true, frame(peer))
                answer = frame(true)
                behind = 5 + int.from_bytes(answer[1:5])
                output = changed(answer[5:behind])
                give(peer, answer[:1] + len(output).to_bytes(4) + output + answer[behind:])


if "serve" in sys.argv:
    serve(sys.argv[sys.argv.index("--db") + 1])
done = subprocess.run([TOLL, *sys.argv[1:]], capture_output=True)
os.write(1, changed(done.stdout))
os.write(2, done.stderr)
sys.exit(done.returncode)
'''


def liar(path: pathlib.Path, toll: str, lie: str) -> str:
    """The path of such a program, which is made; the lie is a script of `sed`."""
    path.write_text(PROGRAM.format(toll=toll, lie=lie))
    path.chmod(0o700)
    return str(path)
