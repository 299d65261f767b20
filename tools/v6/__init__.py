import sys

if sys.version_info < (3, 9):  # this file, and those of the commands, can be read by Python 3.6
    sys.exit("%s: Python 3.9 or later is wanted, and this is %d.%d" % (sys.argv[0].rpartition("/")[2], sys.version_info[0], sys.version_info[1]))
