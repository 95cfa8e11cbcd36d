"""The pages, each with its address and its forms."""
from . import batches, cases, counts, entrance, lots, papers, receipts, recalls, shipments, today

ALL = [module.PAGE for module in (entrance, today, receipts, lots, batches, shipments, recalls, cases, counts, papers)]
