//! Data of a handler for its objects.

use crate::tables::Object;
use crate::typed::Handle;
use std::fmt;

/// The first id of the range from which a server makes objects.
const FIRST_SERVER_ID: u32 = 0xff00_0000;

/// What an [`ObjectMap`] is indexed by: a typed object, or an [`Object`].
pub trait Key: Copy {
    /// The key of an object.
    fn of(object: Object) -> Self;

    /// The object.
    fn object(self) -> Object;
}

impl Key for Object {
    fn of(object: Object) -> Object {
        object
    }

    fn object(self) -> Object {
        self
    }
}

impl<H: Handle> Key for H {
    fn of(object: Object) -> H {
        H::of(object)
    }

    fn object(self) -> Object {
        Handle::object(self)
    }
}

/// Data of a type for each object of one connection. The handler owns it, and so may change the data of
/// several objects at once.
///
/// It is indexed by the object's id, so a look-up takes constant time, without hashing. Only the object for
/// which data were inserted finds them. They stay, also when the object has ended, until they are removed or
/// data are inserted for a later object with the same id. So a map is never larger than the most objects that
/// were there at a time.
///
/// ```
/// use waywire::wayland::wl_compositor::{self, WlCompositor};
/// use waywire::wayland::wl_surface::{self, WlSurface};
/// use waywire::{ObjectMap, ServerWriter};
///
/// struct Surface {
///     commits: u32,
/// }
///
/// struct State {
///     surfaces: ObjectMap<WlSurface, Surface>,
/// }
///
/// impl wl_compositor::Requests for State {
///     fn create_surface(&mut self, _: &ServerWriter, _: WlCompositor, surface: WlSurface) {
///         self.surfaces.insert(surface, Surface { commits: 0 });
///     }
/// }
///
/// impl wl_surface::Requests for State {
///     fn commit(&mut self, _: &ServerWriter, surface: WlSurface) {
///         if let Some(surface) = self.surfaces.get_mut(surface) {
///             surface.commits += 1;
///         }
///     }
///
///     fn destroy(&mut self, _: &ServerWriter, surface: WlSurface) {
///         self.surfaces.remove(surface);
///     }
/// }
/// ```
#[derive(Clone)]
pub struct ObjectMap<K, T> {
    of_client: Vec<Option<(K, T)>>,
    of_server: Vec<Option<(K, T)>>,
}

impl<K, T> Default for ObjectMap<K, T> {
    fn default() -> ObjectMap<K, T> {
        ObjectMap { of_client: Vec::new(), of_server: Vec::new() }
    }
}

/// The index of an object in the list of its range.
fn index_of(object: Object) -> usize {
    (object.id() % FIRST_SERVER_ID) as usize
}

impl<K: Key, T> ObjectMap<K, T> {
    /// A map without data.
    pub fn new() -> ObjectMap<K, T> {
        ObjectMap::default()
    }

    fn list(&self, object: Object) -> &[Option<(K, T)>] {
        if object.id() < FIRST_SERVER_ID {
            &self.of_client
        } else {
            &self.of_server
        }
    }

    fn list_mut(&mut self, object: Object) -> &mut Vec<Option<(K, T)>> {
        if object.id() < FIRST_SERVER_ID {
            &mut self.of_client
        } else {
            &mut self.of_server
        }
    }

    /// The place of an object, if that has its data.
    fn place_mut(&mut self, object: Object) -> Option<&mut Option<(K, T)>> {
        let place = self.list_mut(object).get_mut(index_of(object))?;
        place.as_ref().is_some_and(|(key, _)| key.object() == object).then_some(place)
    }

    /// Sets the data of an object. Returns those that it had before. Those of an earlier object with its id
    /// are dropped.
    pub fn insert(&mut self, key: K, data: T) -> Option<T> {
        let object = key.object();
        let before = self.remove(key);
        let (index, list) = (index_of(object), self.list_mut(object));
        if list.len() <= index {
            list.resize_with(index + 1, || None);
        }
        list[index] = Some((key, data));
        before
    }

    /// The data of an object.
    pub fn get(&self, key: K) -> Option<&T> {
        let object = key.object();
        let (found, data) = self.list(object).get(index_of(object))?.as_ref()?;
        (found.object() == object).then_some(data)
    }

    /// The data of an object, to be changed.
    pub fn get_mut(&mut self, key: K) -> Option<&mut T> {
        self.place_mut(key.object())?.as_mut().map(|(_, data)| data)
    }

    /// The data of an object, to be changed. If it has none, these are the default.
    pub fn get_or_default(&mut self, key: K) -> &mut T
    where
        T: Default,
    {
        if self.get(key).is_none() {
            self.insert(key, T::default());
        }
        self.get_mut(key).expect("it was inserted")
    }

    /// Removes the data of an object, and returns them.
    pub fn remove(&mut self, key: K) -> Option<T> {
        self.place_mut(key.object())?.take().map(|(_, data)| data)
    }

    /// The objects that have data, with these, in the order of their ids.
    pub fn iter(&self) -> impl Iterator<Item = (K, &T)> {
        let lists = self.of_client.iter().chain(&self.of_server);
        lists.flatten().map(|(key, data)| (*key, data))
    }

    /// The same, to change the data.
    pub fn iter_mut(&mut self) -> impl Iterator<Item = (K, &mut T)> {
        let lists = self.of_client.iter_mut().chain(&mut self.of_server);
        lists.flatten().map(|(key, data)| (*key, data))
    }

    /// Keeps only the data of these objects, such as those that are [live](crate::Writer::live).
    pub fn retain(&mut self, mut keeps: impl FnMut(K, &mut T) -> bool) {
        for place in self.of_client.iter_mut().chain(&mut self.of_server) {
            if place.as_mut().is_some_and(|(key, data)| !keeps(*key, data)) {
                *place = None;
            }
        }
    }
}

impl<K: Key + fmt::Debug, T: fmt::Debug> fmt::Debug for ObjectMap<K, T> {
    fn fmt(&self, f: &mut fmt::Formatter<'_>) -> fmt::Result {
        f.debug_map().entries(self.iter()).finish()
    }
}

#[cfg(test)]
mod tests {
    use super::{ObjectMap, FIRST_SERVER_ID};
    use crate::tables::Object;
    use waywire_sys::waywire_object;

    #[test]
    fn data_are_found_by_their_object_alone() {
        let at = |id, birth| Object(waywire_object { birth, id });
        let (old, new, last) = (at(3, 5), at(3, 9), at(FIRST_SERVER_ID + 2, 1));
        let mut map = ObjectMap::new();
        assert_eq!((map.insert(old, "old"), map.insert(old, "older")), (None, Some("old")));
        assert_eq!(map.remove(new), None);
        assert_eq!((map.get(old), map.get(new)), (Some(&"older"), None));
        assert_eq!((map.insert(new, "new"), map.insert(last, "last")), (None, None));
        assert_eq!((map.get(old), map.get(new)), (None, Some(&"new")));
        assert_eq!(map.get_mut(new), Some(&mut "new"));
        assert_eq!(map.iter().collect::<Vec<_>>(), [(new, &"new"), (last, &"last")]);
        map.iter_mut().for_each(|(_, data)| *data = "changed");
        map.retain(|object, _| object != new);
        assert_eq!(format!("{map:?}"), format!("{{{last:?}: \"changed\"}}"));
        assert_eq!((map.remove(last), map.remove(last)), (Some("changed"), None));
        *map.get_or_default(new) = "set";
        assert_eq!((*map.get_or_default(new), *map.get_or_default(last)), ("set", ""));
    }
}
