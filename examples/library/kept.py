"""Keeps a register in the file hlr.journal, as kept.c does: each run moves subscriber 7 on."""
import hlr

with hlr.Register(journal="hlr.journal") as register:
    try:
        row = register.subscriber_data(7)
        register.update_location(row.sub_nbr, row.vlr_location + 1)
    except hlr.NoSubscriber:
        register.add_subscriber(hlr.Subscriber(7, 49151000007))
    register.sync()
    print("the location is", register.subscriber_data(7).vlr_location)
