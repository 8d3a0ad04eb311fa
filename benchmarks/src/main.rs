//! The proved library beside peers, in one run on the same inputs: a straightforward Rust program of the same algorithm and,
//! for reads and tags, libxml2. Prints two tables in Markdown, and a third where another build of the library is there too.

#[cfg(feature = "before")]
mod before;
mod documents;
mod growth;
mod inputs;
mod measure;
#[cfg(feature = "libxml2")]
mod patience;
mod peer;
mod proved;
mod rows;
#[cfg(feature = "libxml2")]
mod xpath;

fn main() {
    #[cfg(feature = "libxml2")]
    {
        let words: Vec<String> = std::env::args().skip(1).collect();
        if let [word, text] = words.as_slice() {
            if word == patience::TRIED {
                return patience::tried(text);
            }
        }
    }
    rows::print();
    println!();
    growth::print();
    #[cfg(feature = "before")]
    {
        println!();
        before::print();
    }
}
