"""Tests of kfifo_test: the check finds the fault of each faulty queue, and passes the right ones. They run in the
folder above:

    python3 -W error -m unittest
    python3 -W error -m unittest tests.test_hangs

KFIFO_JUDGE_LIBRARY names the library, where it is not beside the folder kfifo_test. Each right queue is checked for 2
seconds, and with KFIFO_JUDGE_LONG for 30.
"""
