"""Adds a subscriber to a register in a server, moves it, and prints the counts and all rows. The environment variable
REDIS_URL names the server; without it, it is the one on this machine."""
import os
import sys

import redis

import hlr
import hlr.remote

client = redis.Redis.from_url(os.environ.get("REDIS_URL", "redis://127.0.0.1:6379"))
register = hlr.remote.Register.create(client, "first", width=313)
register.add_subscriber(hlr.Subscriber(7, 49151000007, vlr_location=268435456))
register.update_location(49151000007, 536870912)
for cell in register.cells():
    if cell.published:
        print(cell.name, cell.published)
try:
    register.find(49151000008)
except hlr.NoNumber as refused:
    print(refused.code.name)
print(hlr.remote.save(register, sys.stdout), "record")
client.unlink(register.key)
