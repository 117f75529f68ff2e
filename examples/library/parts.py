"""Lends a part to a thread, which moves a subscriber; the part goes home as the thread's `with` ends."""
import threading
import hlr


def work(part):
    with part:
        part.update_location(7, 268435456)


with hlr.Register(parts=2) as register:
    register.add_subscriber(hlr.Subscriber(7, 77))
    thread = threading.Thread(target=work, args=[register.lend(0)])
    thread.start()
    thread.join()
    register.back(0)
    print(register.subscriber_data(7).vlr_location)
