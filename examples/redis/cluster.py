"""Makes registers for twelve blocks of 100,000 numbers in a cluster, adds a subscriber, moves it, and prints where it is
and the sums of the areas. REDIS_URL names a node of the cluster; without it, it is the one at port 7001 on this machine."""
import logging
import os

import redis

import hlr
import hlr.remote

logging.getLogger("redis.cluster").setLevel(logging.CRITICAL)
client = redis.RedisCluster.from_url(os.environ.get("REDIS_URL", "redis://127.0.0.1:7001"))
cluster = hlr.remote.Cluster(client, hlr.remote.blocks_of(49151200000, 12, prefix="trial:"))
cluster.create(width=3125)
number = 49151234567
register = cluster.register(number)
register.add_subscriber(hlr.Subscriber(number % 100000 + 1, number, vlr_location=268435456))
cluster.update_location(number, 536870912)
print(cluster.find(number))
print(cluster.areas())
for each in cluster.registers():
    client.unlink(each.key)
