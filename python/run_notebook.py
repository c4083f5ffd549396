"""Runs the cells of a notebook and stores what they put, without Jupyter:

    python3 run_notebook.py ../examples/kondili.ipynb
"""
import ast, contextlib, io, json, os, sys


def run_cell(source, names):
    """What a cell puts: its text, and how the value of its last line shows itself."""
    body, text = ast.parse(source).body, io.StringIO()
    last = body.pop() if body and isinstance(body[-1], ast.Expr) else None
    with contextlib.redirect_stdout(text):
        exec(compile(ast.Module(body, []), "<cell>", "exec"), names)
        value = eval(compile(ast.Expression(last.value), "<cell>", "eval"), names) if last else None
    outputs = [{"output_type": "stream", "name": "stdout", "text": lines(text.getvalue())}] if text.getvalue() else []
    return outputs + ([] if value is None else [{"output_type": "execute_result", "metadata": {}, "data": shown(value)}])


def shown(value):
    """A value in the forms that it offers."""
    data = {"text/plain": lines(repr(value))}
    for form, method in (("image/svg+xml", "_repr_svg_"), ("text/html", "_repr_html_")):
        offered = getattr(value, method)() if hasattr(value, method) else None
        if offered is not None:
            data[form] = lines(offered)
    return data


def lines(text):
    """A text as a notebook keeps it."""
    return text.splitlines(keepends=True)


def run(notebook):
    """Runs the code cells in their order and stores their outputs."""
    names, count = {"__name__": "__main__"}, 0
    for cell in notebook["cells"]:
        if cell["cell_type"] == "code":
            count += 1
            cell["outputs"] = run_cell("".join(cell["source"]), names)
            cell["execution_count"] = count
            for it in cell["outputs"]:
                if it["output_type"] == "execute_result":
                    it["execution_count"] = count


def main(file):
    with open(file, encoding="utf-8") as text:
        notebook = json.load(text)
    os.chdir(os.path.dirname(os.path.abspath(file)))
    run(notebook)
    with open(os.path.basename(file), "w", encoding="utf-8") as text:
        text.write(json.dumps(notebook, indent=1, ensure_ascii=False) + "\n")


if __name__ == "__main__":
    main(sys.argv[1])
