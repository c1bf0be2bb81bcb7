//! Stand-in for `yaml_rust`: the types that machine loading names. Nothing is ever loaded.

#[derive(Debug, Clone, PartialEq)]
pub enum Yaml {
    Null,
    Boolean(bool),
    Integer(i64),
    Real(String),
    String(String),
    Array(Vec<Yaml>),
    Hash(Hash),
    BadValue,
}

impl Yaml {
    pub fn as_bool(&self) -> Option<bool> {
        if let Self::Boolean(value) = self { Some(*value) } else { None }
    }

    pub fn as_i64(&self) -> Option<i64> {
        if let Self::Integer(value) = self { Some(*value) } else { None }
    }

    pub fn as_str(&self) -> Option<&str> {
        if let Self::String(value) = self { Some(value) } else { None }
    }

    pub fn into_string(self) -> Option<String> {
        if let Self::String(value) = self { Some(value) } else { None }
    }

    pub fn into_vec(self) -> Option<Vec<Yaml>> {
        if let Self::Array(value) = self { Some(value) } else { None }
    }

    pub fn into_hash(self) -> Option<Hash> {
        if let Self::Hash(value) = self { Some(value) } else { None }
    }
}

#[derive(Debug, Clone, PartialEq, Default)]
pub struct Hash(Vec<(Yaml, Yaml)>);

impl Hash {
    pub fn remove(&mut self, key: &Yaml) -> Option<Yaml> {
        let place = self.0.iter().position(|(k, _)| k == key)?;
        Some(self.0.remove(place).1)
    }

    pub fn pop_front(&mut self) -> Option<(Yaml, Yaml)> {
        if self.0.is_empty() { None } else { Some(self.0.remove(0)) }
    }
}

impl IntoIterator for Hash {
    type Item = (Yaml, Yaml);
    type IntoIter = std::vec::IntoIter<Self::Item>;

    fn into_iter(self) -> Self::IntoIter {
        self.0.into_iter()
    }
}

#[derive(Debug)]
pub struct ScanError;

pub struct YamlLoader;

impl YamlLoader {
    pub fn load_from_str(_text: &str) -> Result<Vec<Yaml>, ScanError> {
        Ok(vec![])
    }
}
