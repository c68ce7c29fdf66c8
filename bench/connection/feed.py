"""feed.py PORT FILE: sends the file over one loopback connection while reading every reply byte; prints how many came."""
import socket
import sys
import threading

port, path = int(sys.argv[1]), sys.argv[2]
link = socket.create_connection(("127.0.0.1", port))
data = open(path, "rb").read()


def send():
    link.sendall(data)
    link.shutdown(socket.SHUT_WR)


sender = threading.Thread(target=send)
sender.start()
got = 0
while True:
    piece = link.recv(1 << 16)
    if not piece:
        break
    got += len(piece)
sender.join()
print(got)
