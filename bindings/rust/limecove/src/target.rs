//! Where links and images go.

use crate::definitions::{copied, Definitions};
use crate::tree::Text;
#[cfg(doc)]
use crate::Tree;
use crate::{Error, Name, Node};
use std::ops::Range;

/// Where a link or an image goes, and what it shows, as [`Node::link`] finds it.
#[derive(Clone, Debug, PartialEq, Eq, Hash)]
#[non_exhaustive]
pub struct Target<'a> {
    /// The destination, with what escapes and references stand for. It is as the document has it: any scheme, and no `%` added. An
    /// address of mail begins with `mailto:`, and that of a literal of GFM that begins with `www.`, with `http://`.
    pub destination: Vec<u8>,
    /// The title, if there is one, with what escapes and references stand for.
    pub title: Option<Vec<u8>>,
    /// The span of what is shown, or of an image described, if there is something. Its children are inline text; [`Node::decoded`] has
    /// its words.
    pub label: Option<Node<'a>>,
    /// The definition that says so, if it is a link or an image by reference, or a definition, and if this is in the tree.
    pub definition: Option<Node<'a>>,
    /// The bytes of the document that the definition covers that says so, also if it is [in another section](Tree::with_definitions).
    pub defined_at: Option<Range<usize>>,
}

impl<'a> Node<'a> {
    /// Where a link, an image, an autolink, an autolink literal of GFM or a definition goes. `None` if it is none of these. By reference it goes
    /// where its [`definition`](Node::definition) says. Without one, as in a tree of a section
    /// [whose document's definitions](Tree::with_definitions) it does not have, that is `None` too.
    ///
    /// It takes time in proportion to the destination, the title and the children of the label. Only by [`Machine::Document`](crate::Machine)
    /// are escapes and references in destinations and titles spans. They are found here, unless they are off.
    ///
    /// ```
    /// use limecove::{Name, Options, Tree};
    ///
    /// let tree = Tree::read("![a *b*](c\\*d '&lt;')", &Options::default())?;
    /// let image = tree.nodes().find(|node| node.name() == Name::Image).unwrap();
    /// let target = image.link()?.unwrap();
    /// assert_eq!(target.destination, b"c*d");
    /// assert_eq!(target.title.unwrap(), b"<");
    /// assert_eq!(target.label.unwrap().decoded()?, b"a b");
    /// # Ok::<(), limecove::Error>(())
    /// ```
    ///
    /// # Errors
    ///
    /// If it runs out of memory.
    pub fn link(&self) -> Result<Option<Target<'a>>, Error> {
        match self.name() {
            Name::Link | Name::Image => {}
            Name::Definition => return self.said(None, Some(*self)).map(Some),
            Name::Autolink => return self.autolink(),
            Name::GfmAutolinkLiteralWww => return self.address(b"http://").map(Some),
            Name::GfmAutolinkLiteralEmail => return self.address(b"mailto:").map(Some),
            Name::GfmAutolinkLiteralMailto
            | Name::GfmAutolinkLiteralProtocol
            | Name::GfmAutolinkLiteralXmpp => return self.address(b"").map(Some),
            _ => return Ok(None),
        }
        let label = self.child(Name::Label);
        let label = label.and_then(|label| label.child(Name::LabelText));
        if let Some(resource) = self.child(Name::Resource) {
            return resource.said(label, None).map(Some);
        }
        let definition = self.definition()?;
        match self.tree().known {
            Some(known) => self.elsewhere(known, label, definition),
            None => definition.map(|it| it.said(label, definition)).transpose(),
        }
    }

    /// Where a link by reference goes by the definitions of the whole document.
    fn elsewhere(
        &self,
        known: &Definitions,
        label: Option<Node<'a>>,
        definition: Option<Node<'a>>,
    ) -> Result<Option<Target<'a>>, Error> {
        let asked = self.normalized_label()?;
        let said = match asked.and_then(|it| known.find(&it)) {
            Some(said) => said,
            None => return Ok(None),
        };
        Ok(Some(Target {
            destination: copied(&said.destination)?,
            title: said.title.as_deref().map(copied).transpose()?,
            label,
            definition,
            defined_at: Some(said.bytes.clone()),
        }))
    }

    /// Where a link goes by its resource, or by a definition.
    fn said(
        &self,
        label: Option<Node<'a>>,
        definition: Option<Node<'a>>,
    ) -> Result<Target<'a>, Error> {
        let (mut destination, mut title) = (Text::new(), None);
        for part in self.children() {
            match part.name() {
                Name::ResourceDestination | Name::DefinitionDestination => {
                    let mut forms = part.children();
                    destination.add_string(forms.find_map(|form| string_in(&form)))?;
                }
                Name::ResourceTitle | Name::DefinitionTitle => {
                    let mut text = Text::new();
                    text.add_string(string_in(&part))?;
                    title = Some(text.into_bytes());
                }
                _ => {}
            }
        }
        Ok(Target {
            destination: destination.into_bytes(),
            title,
            label,
            definition,
            defined_at: definition.map(|it| it.bytes()),
        })
    }

    /// Where an autolink goes.
    fn autolink(&self) -> Result<Option<Target<'a>>, Error> {
        let is_address =
            |part: &Node<'_>| matches!(part.name(), Name::AutolinkProtocol | Name::AutolinkEmail);
        match self.children().find(is_address) {
            Some(address) if address.name() == Name::AutolinkEmail => {
                address.address(b"mailto:").map(Some)
            }
            Some(address) => address.address(b"").map(Some),
            None => Ok(None),
        }
    }

    /// Where what is written in it as an address goes, with a scheme before it.
    fn address(&self, scheme: &[u8]) -> Result<Target<'a>, Error> {
        let mut destination = Text::new();
        destination.add_bytes(scheme)?;
        destination.add_text(self.text())?;
        Ok(Target {
            destination: destination.into_bytes(),
            title: None,
            label: Some(*self),
            definition: None,
            defined_at: None,
        })
    }
}

/// The string of a destination or a title, between its marks.
fn string_in<'a>(of: &Node<'a>) -> Option<Node<'a>> {
    of.children().find(|part| {
        matches!(
            part.name(),
            Name::ResourceDestinationString
                | Name::ResourceTitleString
                | Name::DefinitionDestinationString
                | Name::DefinitionTitleString
        )
    })
}
