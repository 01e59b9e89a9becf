"""Makes a syslog of some servers, drawn by a seeded generator.

    make_log.py FILE LINES
"""

import datetime
import random
import sys

SEED = 2026
PROGRAMS = ["sshd", "kernel", "systemd", "CRON", "postfix/smtpd", "dhclient", "nginx", "dockerd"]
USERS = ["root", "ada", "bdale", "www-data"]
MESSAGES = [
    "Accepted publickey for {user} from {address} port {number} ssh2: RSA SHA256:{digits}",
    "Started Session {number} of user {user}.",
    "session opened for user {user}(uid={number}) by (uid=0)",
    "connect from mail-{number}.example.org[{address}]",
    "DHCPREQUEST for {address} on eth0 to 255.255.255.255 port 67",
    "usb 1-{number}: new high-speed USB device number {number} using xhci_hcd",
    "GET /static/js/app.{digits}.js HTTP/1.1 200 {number}",
    "({user}) CMD (/usr/lib/sysstat/sa1 1 {number})",
]


def lines(count):
    """So many lines."""
    draw, time = random.Random(SEED), datetime.datetime(2026, 1, 1)
    for _ in range(count):
        time += datetime.timedelta(seconds=draw.randint(0, 20))
        message = draw.choice(MESSAGES).format(
            user=draw.choice(USERS), number=draw.randint(1, 65_000),
            address=".".join(str(draw.randint(1, 254)) for _ in range(4)),
            digits=f"{draw.getrandbits(64):016x}")
        yield (f"{time:%b} {time.day:2} {time:%H:%M:%S} host{draw.randint(1, 9)} "
               f"{draw.choice(PROGRAMS)}[{draw.randint(100, 30_000)}]: {message}\n")


def main():
    """Makes them."""
    with open(sys.argv[1], "w", encoding="utf-8") as log:
        log.writelines(lines(int(sys.argv[2])))


if __name__ == "__main__":
    main()
