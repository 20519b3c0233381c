"""Transform streams.

The methods are the Streams Standard's abstract operations, in the order of its sections "working
with transform streams", "default controllers", "default sinks" and "default sources". Each
docstring gives the standard's name. The standard lets go of a transformer's algorithms where
they should no more be needed; here they are kept, as docs/SCRIPT.md says.
"""

from __future__ import annotations

from dataclasses import dataclass
from typing import Callable

from promises import JobQueue, Promise, Thrown, promise_rejected_with, promise_resolved_with
from readable import ReadableStream
from readable_controller import ReadableStreamDefaultController, UnderlyingSource
from values import TYPE_ERROR, UNDEFINED, Value, count_size
from writable import WritableStream
from writable_controller import (AbortController, UnderlyingSink,
                                 WritableStreamDefaultController)


@dataclass
class Transformer:
    """The algorithms of a transformer, but for its start algorithm."""

    transform: Callable[[Value], Promise]
    flush: Callable[[], Promise]
    cancel: Callable[[Value], Promise]


class TransformStream:
    """A TransformStream. Its controller is there once it was set up."""

    controller: TransformStreamDefaultController

    def __init__(self, jobs: JobQueue, start_promise: Promise, writable_high_water_mark: int,
                 readable_high_water_mark: int) -> None:
        """InitializeTransformStream, where both halves count their chunks"""
        self.jobs = jobs
        self.writable = WritableStream(jobs)
        sink = UnderlyingSink(start=lambda: start_promise, write=self.sink_write,
                              close=self.sink_close, abort=self.sink_abort)
        WritableStreamDefaultController(self.writable, sink, writable_high_water_mark, count_size,
                                        AbortController(lambda _reason: None))
        self.readable = ReadableStream(jobs)
        source = UnderlyingSource(start=lambda: start_promise, pull=self.source_pull,
                                  cancel=self.source_cancel)
        ReadableStreamDefaultController(self.readable, source, readable_high_water_mark,
                                        count_size)
        self.backpressure: bool | None = None
        self.backpressure_change_promise: Promise | None = None
        self.set_backpressure(True)

    def error(self, error: Value) -> None:
        """TransformStreamError"""
        self.readable.controller.error(error)
        self.error_writable_and_unblock_write(error)

    def error_writable_and_unblock_write(self, error: Value) -> None:
        """TransformStreamErrorWritableAndUnblockWrite"""
        self.writable.controller.error_if_needed(error)
        self.unblock_write()

    def set_backpressure(self, backpressure: bool) -> None:
        """TransformStreamSetBackpressure

        The standard asserts that the backpressure changes. That isn't so where `enqueue` below
        finds that the readable half should pull, and there was backpressure.
        """
        if self.backpressure_change_promise is not None:
            self.backpressure_change_promise.resolve(UNDEFINED)
        self.backpressure_change_promise = Promise(self.jobs)
        self.backpressure = backpressure

    def unblock_write(self) -> None:
        """TransformStreamUnblockWrite"""
        if self.backpressure:
            self.set_backpressure(False)

    # The sink of the writable half

    def sink_write(self, chunk: Value) -> Promise:
        """TransformStreamDefaultSinkWriteAlgorithm"""
        assert self.writable.state == "writable"
        controller = self.controller
        if not self.backpressure:
            return controller.perform_transform(chunk)

        def on_changed(_result: Value) -> Promise:
            writable = self.writable
            if writable.state == "erroring":
                assert writable.stored_error is not None
                raise Thrown(writable.stored_error)
            assert writable.state == "writable"
            return controller.perform_transform(chunk)

        assert self.backpressure_change_promise is not None
        return self.backpressure_change_promise.then(on_changed, None)

    def sink_abort(self, reason: Value) -> Promise:
        """TransformStreamDefaultSinkAbortAlgorithm"""
        controller = self.controller
        if controller.finish_promise is not None:
            return controller.finish_promise
        readable = self.readable
        finish_promise = controller.finish_promise = Promise(self.jobs)

        def on_cancelled(_result: Value) -> None:
            if readable.state == "errored":
                finish_promise.reject(readable.stored_error)
            else:
                readable.controller.error(reason)
                finish_promise.resolve(UNDEFINED)

        def on_cancel_failed(error: Value) -> None:
            readable.controller.error(error)
            finish_promise.reject(error)

        controller.transformer.cancel(reason).then(on_cancelled, on_cancel_failed)
        return finish_promise

    def sink_close(self) -> Promise:
        """TransformStreamDefaultSinkCloseAlgorithm"""
        controller = self.controller
        if controller.finish_promise is not None:
            return controller.finish_promise
        readable = self.readable
        finish_promise = controller.finish_promise = Promise(self.jobs)

        def on_flushed(_result: Value) -> None:
            if readable.state == "errored":
                finish_promise.reject(readable.stored_error)
            else:
                readable.controller.close()
                finish_promise.resolve(UNDEFINED)

        def on_flush_failed(error: Value) -> None:
            readable.controller.error(error)
            finish_promise.reject(error)

        controller.transformer.flush().then(on_flushed, on_flush_failed)
        return finish_promise

    # The source of the readable half

    def source_cancel(self, reason: Value) -> Promise:
        """TransformStreamDefaultSourceCancelAlgorithm"""
        controller = self.controller
        if controller.finish_promise is not None:
            return controller.finish_promise
        writable = self.writable
        finish_promise = controller.finish_promise = Promise(self.jobs)

        def on_cancelled(_result: Value) -> None:
            if writable.state == "errored":
                finish_promise.reject(writable.stored_error)
            else:
                writable.controller.error_if_needed(reason)
                self.unblock_write()
                finish_promise.resolve(UNDEFINED)

        def on_cancel_failed(error: Value) -> None:
            writable.controller.error_if_needed(error)
            self.unblock_write()
            finish_promise.reject(error)

        controller.transformer.cancel(reason).then(on_cancelled, on_cancel_failed)
        return finish_promise

    def source_pull(self) -> Promise:
        """TransformStreamDefaultSourcePullAlgorithm"""
        assert self.backpressure
        self.set_backpressure(False)
        assert self.backpressure_change_promise is not None
        return self.backpressure_change_promise


class TransformStreamDefaultController:
    """A TransformStreamDefaultController."""

    def __init__(self, stream: TransformStream, transformer: Transformer) -> None:
        """SetUpTransformStreamDefaultController"""
        self.stream = stream
        self.transformer = transformer
        self.finish_promise: Promise | None = None
        stream.controller = self

    def desired_size(self) -> int | None:
        """desiredSize"""
        return self.stream.readable.controller.desired_size()

    def enqueue(self, chunk: Value) -> None:
        """TransformStreamDefaultControllerEnqueue

        No size algorithm throws here, so ReadableStreamDefaultControllerEnqueue doesn't. The
        standard asserts that there is backpressure where it differs from what there was. That
        isn't so where an enqueue has fulfilled the promise of a pull, and two reads wait before
        the reaction to it has run: the next enqueue finds that the readable half should pull.
        The steps are performed all the same.
        """
        stream = self.stream
        readable_controller = stream.readable.controller
        if not readable_controller.can_close_or_enqueue():
            raise Thrown(TYPE_ERROR)
        readable_controller.enqueue(chunk)
        if readable_controller.has_backpressure() is not stream.backpressure:
            stream.set_backpressure(True)

    def error(self, error: Value) -> None:
        """TransformStreamDefaultControllerError"""
        self.stream.error(error)

    def perform_transform(self, chunk: Value) -> Promise:
        """TransformStreamDefaultControllerPerformTransform"""

        def on_failed(error: Value) -> None:
            self.stream.error(error)
            raise Thrown(error)

        return self.transformer.transform(chunk).then(None, on_failed)

    def terminate(self) -> None:
        """TransformStreamDefaultControllerTerminate"""
        self.stream.readable.controller.close()
        self.stream.error_writable_and_unblock_write(TYPE_ERROR)


def new_transform_stream(jobs: JobQueue, writable_high_water_mark: int,
                         readable_high_water_mark: int,
                         start: Callable[[], Value | Promise],
                         transformer: Transformer | None) -> TransformStream:
    """new TransformStream(transformer, writableStrategy, readableStrategy), where a transformer
    that has its start algorithm alone is none"""
    start_promise = Promise(jobs)
    stream = TransformStream(jobs, start_promise, writable_high_water_mark,
                             readable_high_water_mark)
    TransformStreamDefaultController(stream, transformer or identity_transformer(stream))
    start_promise.resolve(start())
    return stream


def identity_transformer(stream: TransformStream) -> Transformer:
    """The algorithms of SetUpTransformStreamDefaultControllerFromTransformer where the
    transformer has none of its own"""

    def transform(chunk: Value) -> Promise:
        try:
            stream.controller.enqueue(chunk)
        except Thrown as thrown:
            return promise_rejected_with(stream.jobs, thrown.value)
        return promise_resolved_with(stream.jobs, UNDEFINED)

    return Transformer(
        transform=transform,
        flush=lambda: promise_resolved_with(stream.jobs, UNDEFINED),
        cancel=lambda _reason: promise_resolved_with(stream.jobs, UNDEFINED))
