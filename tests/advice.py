"""What standard error says beside a refusal: what is wrong, and what to do next."""

# Of images that are not mounted, by the words of the fault.
MOUNT = {
    "header bad": "header bad: this is no image: correct its path, or take it out until its die is replaced",
    "arrays differ": "arrays differ: correct the number of the array in the settings, or take out the images of others",
    "geometry differs": "geometry differs: correct the sizes in the settings, or take out the images of other arrays",
    "die twice": "die twice: take out the older of the two images of this die",
    "unclean": "the array was not closed, or lacks this die: serve --recover where all images are there, else look with check --unclean, "
               "then serve --unclean",
    "no die live": "no die live: bring back the images of dies that were in use",
    "image fault": "image fault: look at the disk, and take the path out until its die is replaced",
    # With --recover.
    "missed": "this die was in use, and no image has a header of it: bring it back, or look with check --unclean, then serve --unclean",
    "used spare": "a spare by its header, and yet it was used: look with check --unclean, then serve --unclean",
    "too few": "as many dies are out as each page has copies, so pages may be lost: look with check --unclean, then serve --unclean",
}
LOST = ("pages were lost, which this file names: bring back the images that have them, or write or trim them after serve --unclean, "
        "and remove it")
HELD = "another process has this image, or another of the paths leads to it: end that process, or correct the paths"
TWICE = "this path stands twice among the images: give each die a path of its own"
OF_IMAGE = "bring its disk back, or correct images in the settings"
OF_SETTINGS = "give the path of a settings file"
NOT_TOML = "the text is no TOML: write each line as KEY = VALUE"


def told_of_mount(said):
    """A line that names a fault of mounting, as standard error tells it."""
    where, found, words = said.rpartition(": ")
    return f"{where}{found}{MOUNT.get(words, words)}"


def image(path, words):
    """A line on the file of an image that the system refuses to open."""
    return f"{path}: {words}: {OF_IMAGE}"


def settings(path, words):
    """A line on a settings file that the system refuses to open."""
    return f"{path}: {words}: {OF_SETTINGS}"


def number_of_images(images, dies):
    return f"there are {images} images, and {dies} dies: name one for each die"
