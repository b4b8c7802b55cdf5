"""The calls of csq_requests.h by Python's ctypes, which binds by name: requests_by_name.py LIBRARY ends with 0 if they do
their work."""
import ctypes
import sys

OK, NONE, STALE, ANY, WHY_CANCEL = 0, 8, 9, 0xFFFFFFFF, 1


class Size(ctypes.Structure):
    _fields_ = [(name, ctypes.c_uint32) for name in ('irps', 'files', 'limit', 'passes', 'first_life', 'list')]


class Irp(ctypes.Structure):
    _fields_ = [('irp', ctypes.c_uint32), ('life', ctypes.c_uint32)]


class Request(ctypes.Structure):
    _fields_ = [('name', Irp), ('file', ctypes.c_uint32), ('value', ctypes.c_void_p)]


class Ending(ctypes.Structure):
    _fields_ = [('name', Irp), ('file', ctypes.c_uint32), ('why', ctypes.c_uint32), ('value', ctypes.c_void_p),
                ('word', ctypes.c_void_p)]


EVENT = ctypes.CFUNCTYPE(None, ctypes.c_void_p, ctypes.POINTER(Ending))


class Events(ctypes.Structure):
    _fields_ = [('before_completion', EVENT), ('after_completion', EVENT), ('context', ctypes.c_void_p)]


def check(holds, what):
    if not holds:
        sys.exit(f'requests_by_name: {what}')


def main():
    csq = ctypes.CDLL(sys.argv[1])
    requests, name, value, request, ended = ctypes.c_void_p(), Irp(), ctypes.c_void_p(), Request(), []
    note = EVENT(lambda _, ending: ended.append((ending[0].value, ending[0].why)))
    events = Events(EVENT(), note, None)
    size = Size(irps=4, files=2, limit=4, passes=1, first_life=0, list=2)
    check(csq.csq_requests_new(ctypes.byref(requests), ctypes.byref(size), None, ctypes.byref(events)) == OK, 'not made')
    for number in (7, 8):
        code = csq.csq_requests_submit(requests, ctypes.c_void_p(number), 1, 0, ctypes.byref(name))
        check(code == OK, f'submit {number}: {code}')
    check(csq.csq_requests_next(requests, ANY, 0, ctypes.byref(request)) == OK and request.value == 7, 'not taken')
    check(csq.csq_requests_complete(requests, ctypes.byref(request), 0) == OK, 'not completed')
    code = csq.csq_requests_cancel(requests, name, ctypes.byref(value))
    check(code == OK and value.value == 8 and ended == [(8, WHY_CANCEL)], f'cancel: {code}, {value}, {ended}')
    check(csq.csq_requests_cancel(requests, name, ctypes.byref(value)) == STALE, 'cancelled twice')
    check(csq.csq_requests_next(requests, ANY, 1, ctypes.byref(request)) == NONE, 'one is left')
    check(csq.csq_requests_free(ctypes.byref(requests)) == OK and not requests.value, 'not freed')


if __name__ == '__main__':
    main()
