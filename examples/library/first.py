"""Forwards a subscriber's calls from 8 to 10 o'clock, prints the counts that aren't zero, and asks for one who isn't there."""
import hlr

with hlr.Register(parts=2, width=4) as register:
    register.add_subscriber(hlr.Subscriber(s_id=7, sub_nbr=49151000007, vlr_location=268435456))
    register.add_facility(hlr.Facility(s_id=7, sf_type=2))
    register.insert_forwarding(sub_nbr=49151000007, sf_type=2, start_time=8, end_time=10, numberx=49151000100)
    for cell in register.cells():
        if cell.published + cell.unposted != 0:
            print(cell.name, cell.published + cell.unposted)
    try:
        register.subscriber_data(8)
    except hlr.NoSubscriber as refused:
        print(int(refused.code), refused)
