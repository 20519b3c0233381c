"""Controllers of readable byte streams, and their BYOB requests.

The methods are the Streams Standard's abstract operations, in the order of its section "byte
stream controllers". Each docstring gives the standard's name.

A reader may be released while its descriptor waits, and that descriptor stays, for no reader.
Scripts then make four of the standard's assertions fail, which are left out. A read may wait
beside a queue that isn't empty: a default reader came, its read waited without a descriptor, and
an answer to the descriptor that had stayed put its bytes into the queue. So [[PullSteps]] may find
a request and a queue. And a descriptor may outlive its request: a default reader came, its read
waited with a descriptor of its own behind the one that had stayed, and an enqueue served the read
from that one's bytes. So Enqueue may find a descriptor and no request, and CommitPullIntoDescriptor
a descriptor for which none waits; its bytes are put into the queue here. Beside such a descriptor
the queue may have bytes as the stream is asked to close, so ProcessPullIntoDescriptorsUsingQueue
may find that a close was requested.
"""

from __future__ import annotations

from typing import TYPE_CHECKING

from promises import Promise, Thrown
from readable_byte_records import ByteQueue, PullIntoDescriptor, View
from readable_pulling import PullingController
from readable_reader import ReadableStreamDefaultReader, ReadRequest
from values import RANGE_ERROR, TYPE_ERROR, Bytes, Value

if TYPE_CHECKING:
    from readable import ReadableStream
    from readable_byob_reader import ReadIntoRequest
    from readable_controller import UnderlyingSource


class ReadableStreamBYOBRequest:
    """A ReadableStreamBYOBRequest. It has no controller once it was answered or let go of."""

    def __init__(self, controller: ReadableByteStreamController, view: memoryview) -> None:
        self.controller: ReadableByteStreamController | None = controller
        self.view: memoryview | None = view

    def respond(self, bytes_written: int) -> None:
        """request.respond(bytesWritten)"""
        if self.controller is None:
            raise Thrown(TYPE_ERROR)
        assert self.view is not None
        assert len(self.view) > 0
        self.controller.respond(bytes_written)


class ReadableByteStreamController(PullingController):
    """A ReadableByteStreamController."""

    def __init__(self, stream: ReadableStream, source: UnderlyingSource, high_water_mark: int,
                 auto_allocate_chunk_size: int | None) -> None:
        """SetUpReadableByteStreamController"""
        assert auto_allocate_chunk_size is None or auto_allocate_chunk_size > 0
        super().__init__(stream, source, high_water_mark)
        self.byob_request: ReadableStreamBYOBRequest | None = None
        self.queue = ByteQueue()
        self.auto_allocate_chunk_size = auto_allocate_chunk_size
        self.pending_pull_intos: list[PullIntoDescriptor] = []
        stream.controller = self
        self.start(source)

    # Internal methods

    def cancel_steps(self, reason: Value) -> Promise:
        """[[CancelSteps]]"""
        self.clear_pending_pull_intos()
        self.queue.reset_queue()
        assert self.cancel_algorithm is not None
        result = self.cancel_algorithm(reason)
        self.clear_algorithms()
        return result

    def pull_steps(self, read_request: ReadRequest) -> None:
        """[[PullSteps]]"""
        assert self.stream.has_default_reader()
        if self.queue.total_size > 0:
            self.fill_read_request_from_queue(read_request)
            return
        if self.auto_allocate_chunk_size is not None:
            view = View(bytearray(self.auto_allocate_chunk_size), element_size=1)
            self.pending_pull_intos.append(
                PullIntoDescriptor(view, minimum_fill=1, reader_type="default"))
        self.stream.add_read_request(read_request)
        self.call_pull_if_needed()

    def release_steps(self) -> None:
        """[[ReleaseSteps]]"""
        if self.pending_pull_intos:
            first = self.pending_pull_intos[0]
            first.reader_type = "none"
            self.pending_pull_intos = [first]

    # Abstract operations

    def clear_pending_pull_intos(self) -> None:
        """ReadableByteStreamControllerClearPendingPullIntos"""
        self.invalidate_byob_request()
        self.pending_pull_intos = []

    def close(self) -> None:
        """ReadableByteStreamControllerClose"""
        if self.close_requested or self.stream.state != "readable":
            return
        if self.queue.total_size > 0:
            self.close_requested = True
            return
        if self.pending_pull_intos:
            first = self.pending_pull_intos[0]
            if first.bytes_filled % first.element_size != 0:
                self.error(TYPE_ERROR)
                raise Thrown(TYPE_ERROR)
        self.clear_algorithms()
        self.stream.close()

    def commit_pull_into_descriptor(self, descriptor: PullIntoDescriptor) -> None:
        """ReadableByteStreamControllerCommitPullIntoDescriptor"""
        assert self.stream.state != "errored"
        assert descriptor.reader_type != "none"
        done = False
        if self.stream.state == "closed":
            assert descriptor.bytes_filled % descriptor.element_size == 0
            done = True
        filled_view = descriptor.converted()
        if descriptor.reader_type == "default":
            assert not done
            if self.stream.number_of_read_requests() == 0:
                self.queue.append(filled_view.content)
            else:
                self.stream.fulfill_read_request(filled_view)
        else:
            assert descriptor.reader_type == "byob"
            self.stream.fulfill_read_into_request(filled_view, done)

    def enqueue(self, chunk: bytes) -> None:
        """ReadableByteStreamControllerEnqueue"""
        if self.close_requested or self.stream.state != "readable":
            return
        if self.pending_pull_intos:
            self.invalidate_byob_request()
            first = self.pending_pull_intos[0]
            if first.reader_type == "none":
                self.enqueue_detached_pull_into_to_queue(first)
        if self.stream.has_default_reader():
            self.process_read_requests_using_queue()
            if self.stream.number_of_read_requests() == 0:
                self.queue.append(chunk)
            else:
                assert len(self.queue) == 0
                if self.pending_pull_intos:
                    assert self.pending_pull_intos[0].reader_type == "default"
                    self.shift_pending_pull_into()
                self.stream.fulfill_read_request(Bytes(chunk))
        elif self.stream.has_byob_reader():
            self.queue.append(chunk)
            self._commit_all(self.process_pull_into_descriptors_using_queue())
        else:
            assert not self.stream.is_locked()
            self.queue.append(chunk)
        self.call_pull_if_needed()

    def enqueue_detached_pull_into_to_queue(self, descriptor: PullIntoDescriptor) -> None:
        """ReadableByteStreamControllerEnqueueDetachedPullIntoToQueue"""
        assert descriptor.reader_type == "none"
        if descriptor.bytes_filled > 0:
            self.queue.append(descriptor.last_filled(descriptor.bytes_filled))
        self.shift_pending_pull_into()

    def error(self, error: Value) -> None:
        """ReadableByteStreamControllerError"""
        if self.stream.state != "readable":
            return
        self.clear_pending_pull_intos()
        self.queue.reset_queue()
        self.clear_algorithms()
        self.stream.error(error)

    def fill_head_pull_into_descriptor(self, size: int, descriptor: PullIntoDescriptor) -> None:
        """ReadableByteStreamControllerFillHeadPullIntoDescriptor"""
        assert not self.pending_pull_intos or self.pending_pull_intos[0] is descriptor
        assert self.byob_request is None
        descriptor.bytes_filled += size

    def fill_pull_into_descriptor_from_queue(self, descriptor: PullIntoDescriptor) -> bool:
        """ReadableByteStreamControllerFillPullIntoDescriptorFromQueue"""
        most_to_copy = min(self.queue.total_size,
                           descriptor.byte_length - descriptor.bytes_filled)
        most_filled = descriptor.bytes_filled + most_to_copy
        left_to_copy = most_to_copy
        is_ready = False
        assert descriptor.bytes_filled < descriptor.minimum_fill
        most_aligned = most_filled - most_filled % descriptor.element_size
        if most_aligned >= descriptor.minimum_fill:
            left_to_copy = most_aligned - descriptor.bytes_filled
            is_ready = True
        while left_to_copy > 0:
            copied = self.queue.take_at_most(left_to_copy)
            descriptor.rest()[:len(copied)] = copied
            self.fill_head_pull_into_descriptor(len(copied), descriptor)
            left_to_copy -= len(copied)
        if not is_ready:
            assert self.queue.total_size == 0
            assert 0 < descriptor.bytes_filled < descriptor.minimum_fill
        return is_ready

    def fill_read_request_from_queue(self, read_request: ReadRequest) -> None:
        """ReadableByteStreamControllerFillReadRequestFromQueue"""
        assert self.queue.total_size > 0
        entry = self.queue.take_entry()
        self.handle_queue_drain()
        read_request.chunk_steps(Bytes(entry))

    def get_byob_request(self) -> ReadableStreamBYOBRequest | None:
        """ReadableByteStreamControllerGetBYOBRequest"""
        if self.byob_request is None and self.pending_pull_intos:
            self.byob_request = ReadableStreamBYOBRequest(self, self.pending_pull_intos[0].rest())
        return self.byob_request

    def desired_size(self) -> int | None:
        """ReadableByteStreamControllerGetDesiredSize"""
        if self.stream.state == "errored":
            return None
        if self.stream.state == "closed":
            return 0
        return self.high_water_mark - self.queue.total_size

    def handle_queue_drain(self) -> None:
        """ReadableByteStreamControllerHandleQueueDrain"""
        assert self.stream.state == "readable"
        if self.queue.total_size == 0 and self.close_requested:
            self.clear_algorithms()
            self.stream.close()
        else:
            self.call_pull_if_needed()

    def invalidate_byob_request(self) -> None:
        """ReadableByteStreamControllerInvalidateBYOBRequest"""
        if self.byob_request is None:
            return
        self.byob_request.controller = None
        self.byob_request.view = None
        self.byob_request = None

    def process_pull_into_descriptors_using_queue(self) -> list[PullIntoDescriptor]:
        """ReadableByteStreamControllerProcessPullIntoDescriptorsUsingQueue"""
        filled_pull_intos: list[PullIntoDescriptor] = []
        while self.pending_pull_intos and self.queue.total_size > 0:
            first = self.pending_pull_intos[0]
            if self.fill_pull_into_descriptor_from_queue(first):
                self.shift_pending_pull_into()
                filled_pull_intos.append(first)
        return filled_pull_intos

    def process_read_requests_using_queue(self) -> None:
        """ReadableByteStreamControllerProcessReadRequestsUsingQueue"""
        reader = self.stream.reader
        assert isinstance(reader, ReadableStreamDefaultReader)
        while reader.read_requests and self.queue.total_size > 0:
            self.fill_read_request_from_queue(reader.read_requests.pop(0))

    def pull_into(self, view: View, minimum: int, read_into_request: ReadIntoRequest) -> None:
        """ReadableByteStreamControllerPullInto"""
        minimum_fill = minimum * view.element_size
        assert 0 <= minimum_fill <= view.byte_length
        descriptor = PullIntoDescriptor(view, minimum_fill, reader_type="byob")
        if self.pending_pull_intos:
            self.pending_pull_intos.append(descriptor)
            self.stream.add_read_into_request(read_into_request)
            return
        if self.stream.state == "closed":
            read_into_request.close_steps(Bytes(b""))
            return
        if self.queue.total_size > 0:
            if self.fill_pull_into_descriptor_from_queue(descriptor):
                filled_view = descriptor.converted()
                self.handle_queue_drain()
                read_into_request.chunk_steps(filled_view)
                return
            if self.close_requested:
                self.error(TYPE_ERROR)
                read_into_request.error_steps(TYPE_ERROR)
                return
        self.pending_pull_intos.append(descriptor)
        self.stream.add_read_into_request(read_into_request)
        self.call_pull_if_needed()

    def respond(self, bytes_written: int) -> None:
        """ReadableByteStreamControllerRespond"""
        assert self.pending_pull_intos
        first = self.pending_pull_intos[0]
        if self.stream.state == "closed":
            if bytes_written != 0:
                raise Thrown(TYPE_ERROR)
        else:
            assert self.stream.state == "readable"
            if bytes_written == 0:
                raise Thrown(TYPE_ERROR)
            if first.bytes_filled + bytes_written > first.byte_length:
                raise Thrown(RANGE_ERROR)
        self.respond_internal(bytes_written)

    def respond_in_closed_state(self, first: PullIntoDescriptor) -> None:
        """ReadableByteStreamControllerRespondInClosedState"""
        assert first.bytes_filled % first.element_size == 0
        if first.reader_type == "none":
            self.shift_pending_pull_into()
        if self.stream.has_byob_reader():
            requests = self.stream.number_of_read_into_requests()
            self._commit_all([self.shift_pending_pull_into() for _ in range(requests)])

    def respond_in_readable_state(self, bytes_written: int, first: PullIntoDescriptor) -> None:
        """ReadableByteStreamControllerRespondInReadableState"""
        assert first.bytes_filled + bytes_written <= first.byte_length
        self.fill_head_pull_into_descriptor(bytes_written, first)
        if first.reader_type == "none":
            self.enqueue_detached_pull_into_to_queue(first)
            self._commit_all(self.process_pull_into_descriptors_using_queue())
            return
        if first.bytes_filled < first.minimum_fill:
            return
        self.shift_pending_pull_into()
        remainder_size = first.bytes_filled % first.element_size
        if remainder_size > 0:
            self.queue.append(first.last_filled(remainder_size))
        first.bytes_filled -= remainder_size
        filled_pull_intos = self.process_pull_into_descriptors_using_queue()
        self.commit_pull_into_descriptor(first)
        self._commit_all(filled_pull_intos)

    def respond_internal(self, bytes_written: int) -> None:
        """ReadableByteStreamControllerRespondInternal"""
        first = self.pending_pull_intos[0]
        self.invalidate_byob_request()
        if self.stream.state == "closed":
            assert bytes_written == 0
            self.respond_in_closed_state(first)
        else:
            assert self.stream.state == "readable"
            assert bytes_written > 0
            self.respond_in_readable_state(bytes_written, first)
        self.call_pull_if_needed()

    def shift_pending_pull_into(self) -> PullIntoDescriptor:
        """ReadableByteStreamControllerShiftPendingPullInto"""
        assert self.byob_request is None
        return self.pending_pull_intos.pop(0)

    def should_call_pull(self) -> bool:
        """ReadableByteStreamControllerShouldCallPull"""
        if self.stream.state != "readable":
            return False
        if self.close_requested:
            return False
        if not self.started:
            return False
        if self.stream.has_default_reader() and self.stream.number_of_read_requests() > 0:
            return True
        if self.stream.has_byob_reader() and self.stream.number_of_read_into_requests() > 0:
            return True
        desired_size = self.desired_size()
        assert desired_size is not None
        return desired_size > 0

    def _commit_all(self, descriptors: list[PullIntoDescriptor]) -> None:
        for descriptor in descriptors:
            self.commit_pull_into_descriptor(descriptor)
