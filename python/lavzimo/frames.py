"""Answers as data frames."""
import io
from collections.abc import Iterable
from typing import TYPE_CHECKING

if TYPE_CHECKING:
    import pandas


def typed(column: "pandas.Series") -> "pandas.Series":
    """A column of texts as one of truth values or of integers of 64 bits, where all that aren't null are such."""
    if column.isin(["true", "false"]).any():
        if column.dropna().isin(["true", "false"]).all():
            return column.map({"true": True, "false": False}).astype("boolean")
        return column
    try:
        return column.astype("Int64")
    except (OverflowError, TypeError, ValueError):
        return column


def to_pandas(answer: bytes, texts: Iterable[str] = ()) -> "pandas.DataFrame":
    """An answer in CSV as a data frame of pandas, where pandas is installed.

    An empty field is a null, and no other text is one. Columns of integers and of truth values become such, but for
    those that are named as texts; integers beyond 64 bits stay texts.
    """
    import pandas

    frame = pandas.read_csv(io.BytesIO(answer), dtype="string", keep_default_na=False, na_values=[""])
    kept = set(texts)
    return pandas.DataFrame({name: frame[name] if name in kept else typed(frame[name]) for name in frame.columns})
