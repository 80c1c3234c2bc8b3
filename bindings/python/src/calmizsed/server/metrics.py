"""What is counted, in the text form of Prometheus."""

from __future__ import annotations

from typing import Callable

from prometheus_client import CollectorRegistry, Counter, Gauge, Histogram, generate_latest
from prometheus_client.exposition import CONTENT_TYPE_LATEST

CONTENT_TYPE = CONTENT_TYPE_LATEST
SECONDS = 0.002, 0.005, 0.01, 0.025, 0.05, 0.1, 0.25, 0.5, 1.0, 2.5, 5.0, 10.0, 30.0


class Metrics:
    """The numbers of one server process."""

    def __init__(self) -> None:
        self._registry = CollectorRegistry()
        self._queries = Counter(
            "calmizsed_queries", "Queries that got a signed reply", ["publisher", "kind", "outcome"], registry=self._registry)
        self._seconds = Histogram(
            "calmizsed_query_seconds", "Seconds from a query's last octet to its reply", ["kind"], buckets=SECONDS,
            registry=self._registry)
        self._changes = Counter("calmizsed_changes", "Changes of objects that were made", ["publisher"], registry=self._registry)
        self._answers = Counter("calmizsed_http_answers", "Answers of HTTP", ["code"], registry=self._registry)

    def query(self, publisher: str, kind: str, outcome: str, changes: int, seconds: float) -> None:
        """Counts a query. There are as many publishers as were added, so that no client makes this grow."""
        self._queries.labels(publisher, kind, outcome).inc()
        self._seconds.labels(kind).observe(seconds)
        if changes:
            self._changes.labels(publisher).inc(changes)

    def answer(self, code: int) -> None:
        """Counts an answer of HTTP."""
        self._answers.labels(str(code)).inc()

    def watch(self, name: str, what: str, value: Callable[[], float]) -> None:
        """Has a number be asked for whenever the metrics are."""
        Gauge(f"calmizsed_{name}", what, registry=self._registry).set_function(value)

    def text(self) -> bytes:
        """All numbers."""
        octets: bytes = generate_latest(self._registry)
        return octets
