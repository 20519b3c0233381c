"""The stages of a pipeline file, by worker."""
import tomllib


def stages(file):
    """The kinds of each worker's stages, in order. A stage without a worker is on that of the one before it."""
    found, worker = {}, 1
    for stage in tomllib.loads(file.decode()).get("stage", []):
        worker = stage.get("worker", worker)
        found.setdefault(worker, []).append(str(stage.get("kind")))
    return found
