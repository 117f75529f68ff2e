"""Saves the rows of a register to rows.csv, so that a crash leaves the old file or the new one, and loads them again."""
import os
import hlr

with hlr.Register() as register:
    register.add_subscriber(hlr.Subscriber(7, 77))
    register.add_facility(hlr.Facility(7, 2))
    register.insert_forwarding(77, 2, 8, 16, 100)
    with open("rows.csv.new", "w") as file:
        print(hlr.save(register, file), "records")
        file.flush()
        os.fsync(file.fileno())
    os.rename("rows.csv.new", "rows.csv")

with open("rows.csv") as file, hlr.load(file) as again:
    print(again.new_destination(7, 2, 8, 12))
