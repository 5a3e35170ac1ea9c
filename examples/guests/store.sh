# The workload of store.c: a gigabyte of values, and 4,000 updates a second. A guest has more than one process: without
# KVM, QEMU's own table of the guest's pages stays as large as the store otherwise, and is searched for each page.
while :; do sleep 0.2; done &
exec store 1024 4000
