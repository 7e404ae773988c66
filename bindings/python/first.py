from fdb_read_version import Chain, GrvQueue, QueueConfig, Refused

with Chain(epoch_end=100, recovery=200, proxies=2) as chain:
    print(chain.ask(proxy=0, num=1, at=5))
    try:
        chain.ask(proxy=1, num=7, at=5)
    except Refused as refused:
        print("refused:", refused)
with GrvQueue(QueueConfig(normal=100, batch=10, room=50)) as queue:
    queue.offer(count=3, payload=17)
    print([request.payload for request in queue.window(elapsed=1000).started])
