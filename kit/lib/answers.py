"""Words of answers and of `spinesd-status` that tell of lives and versions: what each means, and what to do."""

import re

WORDS = {
    "epoch": ("A message is of another life of one of its ends than the one that is held here, and nothing of it is done. As `epoch:` before another word it is "
              "what a node says of its start.",
              "Nothing: some come after each start until all have heard of it. A priority message of an earlier life comes again until it expires, so let "
              "priority messages expire soon."),
    "gap": ("A message comes too early: those of its flow before it never came here.",
            "Nothing under format 2, where it ends within seconds. Under format 1 a daemon on the way was started again: restart all nodes together."),
    "ended": ("A flow ended: another life of one of its ends began, and it counts from 1 again; or one of its ends was removed, and it begins no more.",
              "Nothing of the daemon. What was accepted before and wasn't delivered is lost, and so is what no client had taken: send it again."),
    "kended": ("A flow on paths ended, as `ended` says it of others.", "As there."),
    "offmask": ("A message on paths came over a link that its signed mask doesn't have: no correct node sends it there.",
                "Look at the neighbour that sent it."),
    "withdrawn": ("The link was withdrawn from the topology: nothing but documents goes over it, and what waited for it left its store.",
                  "Nothing where the administrator withdrew it. A neighbour that doesn't know it yet gets the document by itself."),
    "version": ("The daemon runs under this version of the topology from now on.", "Nothing; `spinesd-status` tells which version each neighbour has."),
    "strange": ("A document of the administrator doesn't follow the topology that the node runs under: it has other nodes, keys or links, or a removed node.",
                "Sign a document that follows (`spinesd-keys publish`); other nodes, keys and links need `spinesd-keys add` or `renew`."),
    "badend": ("The node that is named is no other node of the overlay or a removed one, or under format 2 none of which a start was heard "
               "yet. As `epoch:badend` a node's own start came back to it, which happens all the time.",
               "Ask again; `spinesd-status` tells who isn't met."),
    "learned": ("A frame was made for an earlier life of this node, or before its neighbour had heard of it.", "Nothing: it comes a few times after each start."),
    "STANDS": ("Messages of the flow wait at this node, and nothing of it moved for a while.",
               "Look at the neighbour that is named with it, whether all nodes on the way run, and whether a client takes at the destination."),
}


def words_in(text):
    """The words of a line that are known, each once."""
    return [word for word in dict.fromkeys(re.findall(r"\w+", text)) if word in WORDS]
